// A text put together of numbers and a string, a whole file, and a resource of another file.
data 'TEXT' (129, "Copies") {
    $$Format("Copy %d of %d: %s ($%x)\n", 1, 2, $$Name, 255)
    $$Read("about.txt")
    $$Resource("localized.rsrc", 'TEXT', "About")
};
