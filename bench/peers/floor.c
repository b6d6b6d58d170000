/* The floor: each line in lower case, and nothing else. */
#include <stdio.h>

int main(void)
{
    static char bytes[65536];
    size_t count;
    while ((count = fread(bytes, 1, sizeof bytes, stdin)) > 0) {
        for (size_t place = 0; place < count; place++)
            if (bytes[place] >= 'A' && bytes[place] <= 'Z') bytes[place] += 'a' - 'A';
        fwrite(bytes, 1, count, stdout);
    }
    return 0;
}
