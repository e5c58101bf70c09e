// Greetings as bytes. Compile with -d French for the French ones.
#include "kinds.r"

#ifdef French
#define hello "bonjour"
#else
#define hello "hello"
#endif

data kText (128, "greeting", purgeable) { hello };
data kText (kFirst + 1) { hello ", " hello "\n" };
