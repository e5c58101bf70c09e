data 'Test' (128) { $"0102" };
