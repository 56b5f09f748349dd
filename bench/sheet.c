#include "sheet.h"

#include <stdio.h>
#include <string.h>

static int width_of(const struct column *column)
{
    return column->width < 0 ? -column->width : column->width;
}

void sheet_head(const struct column *columns, size_t count)
{
    printf("\n");
    for (size_t i = 0; i < count; i++)
        sheet_word(&columns[i], columns[i].name);
    sheet_end();
    for (size_t i = 0; i < count; i++) {
        printf("|-");
        for (int j = 0; j < width_of(&columns[i]); j++)
            printf("-");
        printf(columns[i].width < 0 ? "-" : ":");
    }
    sheet_end();
}

void sheet_word(const struct column *column, const char *word)
{
    printf("| %*s ", column->width, word);
}

/* The digits of a number with a comma before each three of those before its point. */
static void add_commas(char *to, const char *digits)
{
    size_t whole = strcspn(digits, ".");
    for (size_t i = 0; digits[i] != '\0'; i++) {
        if (i > 0 && i < whole && (whole - i) % 3 == 0)
            *to++ = ',';
        *to++ = digits[i];
    }
    *to = '\0';
}

void sheet_number(const struct column *column, double number, int decimals)
{
    char digits[64], text[96];
    snprintf(digits, sizeof digits, "%.*f", decimals, number);
    add_commas(text, digits);
    sheet_word(column, number == 0 ? "-" : text);
}

void sheet_time(const struct column *column, double nanoseconds)
{
    sheet_number(column, nanoseconds, nanoseconds < 100 ? 1 : 0);
}

void sheet_end(void)
{
    printf("|\n");
    fflush(stdout);
}
