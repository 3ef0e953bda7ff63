/* Writes U+00FC under each scheme, reads it back, and shows what is refused. It must print expected.txt. */
#include <inttypes.h>
#include <stdio.h>
#include <string.h>

#include "distelhut.h"

/* Prints the bytes of a text as pairs of hexadecimal digits. */
static void print_text(const uint8_t *text, size_t length)
{
    for (size_t i = 0; i < length; i++) {
        printf("%02X", text[i]);
    }
}

/* Prints the bytes of a label as they are. */
static void print_label(const uint8_t *label, size_t length)
{
    fwrite(label, 1, length, stdout);
}

/* Prints what was answered up to the bytes written, and whether there are any. */
static int print_answer(uint32_t answer)
{
    if (answer >= DISTELHUT_ERR_BASE) {
        printf(": refused %" PRIu32 "\n", answer - DISTELHUT_ERR_BASE);
        return 0;
    }
    printf(": %" PRIu32 " bytes, ", answer);
    return 1;
}

/* Writes the label of a text and prints the line for it. */
static void write_label(uint32_t scheme, const uint8_t *text, size_t length)
{
    uint8_t label[DISTELHUT_SIZE_LABEL] = {0};
    uint32_t answer = distelhut_write(scheme, text, length, label, sizeof label);
    printf("write, scheme %" PRIu32 ", ", scheme);
    print_text(text, length);
    if (print_answer(answer)) {
        print_label(label, answer);
        printf("\n");
    }
}

/* Reads the text of a label and prints the line for it. */
static void read_label(uint32_t scheme, const char *characters)
{
    uint8_t text[DISTELHUT_SIZE_TEXT] = {0};
    const uint8_t *label = (const uint8_t *)characters;
    size_t length = strlen(characters);
    uint32_t answer = distelhut_read(scheme, label, length, text, sizeof text);
    printf("read, scheme %" PRIu32 ", ", scheme);
    print_label(label, length);
    if (print_answer(answer)) {
        print_text(text, answer);
        printf("\n");
    }
}

int main(void)
{
    const uint8_t u_umlaut[2] = {0x00, 0xFC};

    write_label(DISTELHUT_SCHEME_ALTDUDE, u_umlaut, 2);
    read_label(DISTELHUT_SCHEME_ALTDUDE, "3n");
    write_label(DISTELHUT_SCHEME_LACE, u_umlaut, 2);
    read_label(DISTELHUT_SCHEME_LACE, "lq--74apy");
    write_label(DISTELHUT_SCHEME_BRACE, u_umlaut, 2);
    read_label(DISTELHUT_SCHEME_BRACE, "22zi-8q9");  /* coded characters in either case */
    write_label(DISTELHUT_SCHEME_DEFAULT, u_umlaut, 2);
    read_label(DISTELHUT_SCHEME_DEFAULT, "3N");      /* capitals are read as small letters */
    read_label(DISTELHUT_SCHEME_LACE, "lq--74ap");   /* the last byte was lost */
    write_label(9, u_umlaut, 2);                     /* no such scheme */
    write_label(DISTELHUT_SCHEME_LACE, u_umlaut, 1); /* half a unit */
    return 0;
}
