/* What stands behind a command: a number and options. Wrong usage is told by what is wrong with it. */
#include "tool.h"
#include <stdarg.h>
#include <stdio.h>
#include <string.h>

int wrong_usage(const char *fault, ...) {
    va_list values;
    va_start(values, fault);
    fputs("decklewren: ", stderr);
    vfprintf(stderr, fault, values);
    fputs("\nTry 'decklewren --help'.\n", stderr);
    va_end(values);
    return WRONG_USAGE;
}

uint32_t narrowed(uint64_t number) { return number < UINT32_MAX ? (uint32_t)number : UINT32_MAX; }

/* Decimal digits only. A number above 64 bits is taken as the largest: none of the library's is as large. */
static int is_number(const char *text, uint64_t *number) {
    *number = 0;
    for (const char *at = text; *at != '\0'; at++) {
        if (*at < '0' || *at > '9') return 0;
        uint64_t digit = (uint64_t)(*at - '0');
        *number = *number > (UINT64_MAX - digit) / 10 ? UINT64_MAX : 10 * *number + digit;
    }
    return *text != '\0';
}

/* An option: what stands behind it is a number from `least` to `most`, or the name of a file, or nothing where it has a place for
   neither. */
typedef struct {
    const char *name;
    unsigned member;
    uint64_t *number, least, most;
    const char **file;
} option;

/* The option of this name, with the places of a request that it fills. Answers 0 where there is none. */
static int find_option(const char *name, request *asked, option *found) {
    const option options[] = {
        {"-x", HEX, NULL, 0, 0, NULL},
        {"--parts", PARTS, &asked->part, 1, UINT64_MAX, NULL},
        {"--seed", SEED, &asked->seed, 0, UINT64_MAX, NULL},
        {"--type", TYPE, &asked->type, 0, UINT8_MAX, NULL},
        {"--source", SOURCE, &asked->source, 0, UINT32_MAX, NULL},
        {"--into", INTO, NULL, 0, 0, &asked->into},
        {"--at", AT, &asked->at, 0, SIZE_MAX, NULL},
    };
    for (size_t n = 0; n < sizeof options / sizeof *options; n++) {
        if (strcmp(options[n].name, name) == 0) {
            *found = options[n];
            return 1;
        }
    }
    return 0;
}

/* The next four take arguments and answer how many; 0, with the fault told, where they cannot. This one takes an option and its
   number. */
static int take_option_number(const option *named, const char *text) {
    if (!is_number(text, named->number)) {
        wrong_usage("%s takes a number, and '%s' is none", named->name, text);
        return 0;
    }
    if (*named->number < named->least) {
        wrong_usage("%s takes a number from %llu on", named->name, (unsigned long long)named->least);
        return 0;
    }
    if (*named->number > named->most) {
        wrong_usage("%s takes a number up to %llu", named->name, (unsigned long long)named->most);
        return 0;
    }
    return 2;
}

static int take_option(const command *called, const option *named, char **arguments, int left, request *asked) {
    if (!(called->takes & named->member)) {
        wrong_usage("%s does not take %s", called->name, named->name);
        return 0;
    }
    asked->given |= named->member;
    if (named->number == NULL && named->file == NULL) {
        return 1;
    }
    if (left < 2) {
        wrong_usage("a %s is missing behind %s", named->number != NULL ? "number" : "file", named->name);
        return 0;
    }
    if (named->number != NULL) {
        return take_option_number(named, arguments[1]);
    }
    *named->file = arguments[1];
    return 2;
}

static int take_number(const command *called, const char *argument, request *asked) {
    uint64_t number;
    if (called->number == NONE) {
        wrong_usage("%s does not take '%s'", called->name, argument);
        return 0;
    }
    if (!is_number(argument, &number)) {
        wrong_usage("%s takes a number, and '%s' is none", called->name, argument);
        return 0;
    }
    if (asked->typed != NULL) {
        wrong_usage("%s takes one number, and '%s' is a second", called->name, argument);
        return 0;
    }
    asked->typed = argument;
    asked->number = number;
    return 1;
}

static int take_next(const command *called, char **arguments, int left, request *asked) {
    option named;
    if (find_option(arguments[0], asked, &named)) return take_option(called, &named, arguments, left, asked);
    if (strncmp(arguments[0], "--", 2) == 0) {
        wrong_usage("there is no option '%s'", arguments[0]);
        return 0;
    }
    return take_number(called, arguments[0], asked);
}

int take_arguments(const command *called, char **arguments, int count, request *asked) {
    for (int n = 0, taken; n < count; n += taken) {
        taken = take_next(called, arguments + n, count - n, asked);
        if (taken == 0) return 0;
    }
    if (called->number == NEEDED && asked->typed == NULL) {
        wrong_usage("a number is missing behind %s", called->name);
        return 0;
    }
    return 1;
}
