/* What is linked behind this is moved by SHIFT bytes: where its code lies changes a contestant's time by some hundredths, so each is measured
   in several places. */
#define TEXT_OF(number) #number
#define TEXT(number) TEXT_OF(number)

void shift(void);

/* It is never called. */
void shift(void) {
    __asm__ volatile(".skip " TEXT(SHIFT));
}
