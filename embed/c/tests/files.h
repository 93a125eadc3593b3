/* files.h: what the tests and the benchmark read. */
#ifndef FILES_H
#define FILES_H
#include <stdio.h>
#include <stdlib.h>
#include <string.h>

struct text {
    char *at;
    size_t len;
};

/* The bytes of a file, or none if there is no such file. */
static inline struct text text_of(const char *name) {
    struct text text = {NULL, 0};
    FILE *file = fopen(name, "rb");
    if (!file)
        return text;
    fseek(file, 0, SEEK_END);
    text.len = (size_t)ftell(file);
    rewind(file);
    text.at = malloc(text.len + 1);
    if (!text.at || fread(text.at, 1, text.len, file) != text.len)
        exit(3);
    text.at[text.len] = 0;
    fclose(file);
    return text;
}

/* The bytes of the file FOLDER/NAME. */
static inline struct text text_in(const char *folder, const char *name) {
    char path[8192];
    snprintf(path, sizeof path, "%s/%s", folder, name);
    return text_of(path);
}
#endif
