// Two declarations of one type: the second takes the place of the first.
type 'Byte' { byte; };
type 'Byte' { byte = 1; };

data 'Byte' (128) { $"FF" };
