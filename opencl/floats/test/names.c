// That each row of names.h names helpers that are there, with as many parameters as it has arguments for.
//   names    the status is 0 where all do
#include <stdbool.h>
#include <stdio.h>
#include <string.h>

struct helper {
    const char *name, *parameters;
};
static const struct helper helpers[] = {
#define HELPER(NAME, RESULT, PARAMETERS, CALLS, TEXT) {#NAME, PARAMETERS},
#include "helpers.h"
};

static bool is_wrong;

static size_t words_of(const char *text) {
    size_t count = *text != '\0';
    for (; *text; text++) count += *text == ' ';
    return count;
}

static void look_up(const char *format, const char *name, const char *arguments) {
    char whole[64];
    snprintf(whole, sizeof whole, "%s_%s", format, name);
    for (size_t i = 0; i < sizeof helpers / sizeof *helpers; i++)
        if (strcmp(helpers[i].name, whole) == 0 && words_of(helpers[i].parameters) == strlen(arguments)) return;
    printf("no helper %s for the arguments %s\n", whole, arguments);
    is_wrong = true;
}

struct row {
    const char *helper, *arguments;
};
static const struct row rows[] = {
#define OPERATION(NAME, NAMED, RESULT, ARGUMENTS) {#NAMED, ARGUMENTS},
#define STORING(NAME, NAMED, ARGUMENTS, STORED, RESULT, OTHERS) {#NAMED, ARGUMENTS}, {#STORED, OTHERS},
#include "../names.h"
};

int main(void) {
    for (size_t i = 0; i < sizeof rows / sizeof *rows; i++) {
        look_up("float", rows[i].helper, rows[i].arguments);
        look_up("double", rows[i].helper, rows[i].arguments);
    }
    return is_wrong;
}
