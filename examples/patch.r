// Changes of the application, for -a.
change 'STR#' (128) to 'STR#' (200, "Names", purgeable);
delete 'ICN#';
data 'Note' (1) { "changed by hand" };
