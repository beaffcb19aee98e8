/* Reads the tables of rows that the proved calls are tested with: each row that C has a call for is asked, and its answer compared with
 * the words that stand there.
 *
 *   test_rows FOLDER
 */
#include "range_set.h"

#include <stdio.h>
#include <stdlib.h>
#include <string.h>

enum { LONGEST = 256, LINE = 4096, WORDS = 8 };

static void fail(const char *what)
{
    fprintf(stderr, "test_rows: FAILED: %s\n", what);
    exit(1);
}

#define TEST(name) GLUE(, TYPE, _##name)
#define CALLS "tests/test_rows.h"
#include "../each_type.h"

/* The tables, whether their last word is how many comparisons a call may make, which C doesn't count, and whether the ends of the type
 * are none of the answers, so that other types' rows are asked as well. */
struct table {
    const char *name;
    int counted;
    bool is_any;
};

static const struct table tables[] = {{"connectives", 0, false}, {"contains", 1, true}, {"from_ranges", 0, true},
    {"from_unsorted", 0, true}, {"from_values", 0, false}, {"gaps", 0, true}, {"insert", 0, false}, {"intersects_range", 0, true},
    {"is_all", 0, false}, {"negation", 0, false}, {"operations", 1, false}, {"range_at", 0, true}, {"ranges", 0, true}, {"rank", 0, true},
    {"split", 1, true}, {"two_sets", 1, false}};

/* The answer to the words of a row by the type that the first one names. It is false if C has none for them. */
static bool answer(const struct table *table, char **words, char *out)
{
    const char *kind = words[0];
    bool is_named = (kind[0] == 'i' || kind[0] == 'u') && strchr("81361", kind[1]) != NULL;
    if (strcmp(kind, "char") == 0 || strcmp(kind, "isize") == 0 || strcmp(kind, "usize") == 0 || strstr(kind, "128") != NULL) return false;
    if (!is_named || strcmp(kind, "i64") == 0) return i64_answers(table->name, words + is_named, out);
    if (strcmp(kind, "u64") == 0) return u64_answers(table->name, words + 1, out);
    if (strcmp(kind, "i32") == 0) return i32_answers(table->name, words + 1, out);
    if (strcmp(kind, "u32") == 0) return u32_answers(table->name, words + 1, out);
    return table->is_any && (kind[0] == 'i' ? i64_answers : u64_answers)(table->name, words + 1, out);
}

/* Whether C has no call for a row: it is of a type of which C has no sets, or of one with other ends than those that are asked, or has
 * a range without an end for a call that takes none. */
static bool is_passed_over(const struct table *table, const char *kind)
{
    static const char *const others[] = {"char", "isize", "usize", "i128", "u128", "i8", "u8", "i16", "u16"};
    const size_t count = table->is_any ? 5 : sizeof others / sizeof *others;
    size_t i;
    for (i = 0; i < count; i++)
        if (strcmp(kind, others[i]) == 0) return true;
    return strcmp(table->name, "from_ranges") == 0 && strstr(kind, "..") != NULL;
}

/* The words of a text, cut at each blank, and null after the last. */
static void cut(char *text, char **words)
{
    size_t n = 0;
    for (text = strtok(text, " "); text != NULL; text = strtok(NULL, " ")) {
        if (n == WORDS) fail("a row has too many words");
        words[n++] = text;
    }
    words[n] = NULL;
}

/* A row with its answer: 1 if the answer is what stands there, 0 if it isn't, and -1 if C has no call for the row. */
static int holds(const struct table *table, char *row)
{
    char *words[WORDS + 1], out[2 * LINE] = "", *wanted = strstr(row, " = "), *last;
    if (wanted == NULL) fail("a row has no sign =");
    *wanted = '\0', wanted += 3;
    wanted[strcspn(wanted, "\n")] = '\0';
    last = strrchr(wanted, ' ');
    if (table->counted && last != NULL) *last = '\0';
    cut(row, words);
    if (!answer(table, words, out)) {
        if (!is_passed_over(table, words[0])) fail("a row is passed over");
        return -1;
    }
    return strcmp(out, wanted) == 0;
}

/* How many rows of a table hold, each of which has to, and how many wrong ones don't. */
static long reads(const struct table *table, const char *folder)
{
    char path[LINE], line[LINE], row[LINE];
    long right = 0, wrong = 0, number;
    FILE *file;
    snprintf(path, sizeof path, "%s/%s.txt", folder, table->name);
    if ((file = fopen(path, "r")) == NULL) fail(path);
    for (number = 1; fgets(line, sizeof line, file) != NULL; number++) {
        bool is_wrong = line[0] == '!';
        int found;
        if (line[0] == '#') continue;
        strcpy(row, line + (is_wrong ? 2 : 0));
        found = holds(table, row);
        if (found == 0 && !is_wrong) {
            fprintf(stderr, "%s:%ld: %s", path, number, line);
            fail("a row doesn't hold");
        }
        /* One that is wrong by its comparisons alone can't be seen. */
        if (found == 1 && is_wrong && !table->counted) {
            fprintf(stderr, "%s:%ld: %s", path, number, line);
            fail("a wrong row holds");
        }
        right += found == 1 && !is_wrong, wrong += found == 0 && is_wrong;
    }
    fclose(file);
    if (right == 0 || wrong == 0) fail(path);
    return right;
}

int main(int argc, char **argv)
{
    long rows = 0;
    size_t i;
    if (argc != 2) fail("the folder with the tables is wanted");
    for (i = 0; i < sizeof tables / sizeof *tables; i++) rows += reads(&tables[i], argv[1]);
    printf("test_rows: %ld rows of %ju tables\n", rows, (uintmax_t)(sizeof tables / sizeof *tables));
    return 0;
}
