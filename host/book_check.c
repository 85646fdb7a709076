/* Calls the book check on a few byte ranges: 0 for a book that keeps the rules, else 6. */
#include <stddef.h>
#include <stdint.h>
#include <stdio.h>
#include <string.h>

/* A range of bytes goes over as where it begins and how many bytes it has. */
uint32_t book_check(const uint8_t *bytes, size_t len);

static int faults;

static void expect(const char *name, const uint8_t *bytes, size_t len, uint32_t answer)
{
    uint32_t got = book_check(bytes, len);
    printf("%s: %u\n", name, got);
    if (got != answer) {
        printf("  expected %u\n", answer);
        faults++;
    }
}

int main(void)
{
    /* one point, 12 intervals, block C at byte 12 and block G at byte 60, 48 bytes each */
    uint8_t book[108];
    memset(book, 0, sizeof book);
    book[1] = 1;
    book[3] = 12;
    book[7] = 12;
    book[11] = 60;

    expect("a book", book, 108, 0);
    expect("a byte short", book, 107, 6);
    expect("no bytes", book, 0, 6);
    book[11] = 59;
    expect("blocks that share a byte", book, 108, 6);
    book[11] = 60;
    book[7] = 11;
    expect("a block that begins in the header", book, 108, 6);
    book[7] = 12;
    book[3] = 13;
    expect("13 intervals", book, 108, 6);
    book[3] = 12;
    book[1] = 0;
    expect("no points", book, 108, 6);
    return faults != 0;
}
