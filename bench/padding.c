/* Moves the code that is linked behind it by PADDING bytes. */
#define WORDS_OF(number) #number
#define WORDS(number) WORDS_OF(number)

__asm__(".text\n\t.skip " WORDS(PADDING));
