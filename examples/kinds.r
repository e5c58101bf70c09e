#define kText 'TEXT'
#define kFirst 128
