/* A text that is output while another thread writes it: a put reads its bytes, as a load does. The bytes after the text
   on its page are written too, and aren't output.

   races: text */
#include "ithreads.h"

enum { LENGTH = 6 };

char text[LENGTH] IT_PAGE_ALIGNED;
char rest[LENGTH];

static unsigned write(unsigned letter)
{
    it_yield();
    for (unsigned k = 0; k < LENGTH; k++)
        text[k] = rest[k] = (char)(letter + k);
    return 0;
}

int main(void)
{
    it_thread_create(write, 'a');
    it_put(text, LENGTH);
    it_thread_join(1, 0);
    return 0;
}
