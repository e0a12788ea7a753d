/* What the library says beside numbers: the words of a refusal or a code, and its version. Nothing here decides anything. */
#include "caydubeesh.h"

const char *caydubeesh_words(uint64_t number)
{
    switch (number) {
#define WORDS(number, words) \
    case number:             \
        return words;
#include "words.def"
#undef WORDS
    default:
        return "no refusal and no code has this number";
    }
}

const char *caydubeesh_version(void)
{
    return CAYDUBEESH_VERSION;
}
