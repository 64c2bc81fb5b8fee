/* Times of membership, side by side: the static library's lets_in, the same call in plain C (floor.c), and libxml2's validation of the
 * same table as a RELAX NG schema and the same document as XML; and from XML text to the verdict: both calls on the text, libxml2's
 * parse of it with validation, and expat's parse alone.
 *
 *     speed SECONDS FILE..
 *
 * Each FILE holds the size in decimal and a line feed, then five parts, each a number of bytes in decimal, a line feed and the bytes:
 * table, document file, schema, the document as XML for the validation alone, and as XML text; the classes are the ASCII ones. For each
 * one line of numbers goes to standard output. First the answers (1 yes, 0 no):
 *     of lets_in, of the floor and of libxml2 on the document; on the text of lets_in, of the floor, of libxml2 in both ways, and
 *     whether expat parses it.
 * Then seconds a call of
 *     lets_in whole; reading the table; reading the document file; the least call (the three bytes of an empty table), which tries the
 *     classes, clears the working words and does next to nothing else; the floor whole; libxml2's validation alone;
 *     lets_in whole on the text; reading the text; the floor whole on the text; libxml2 on the text: xmlReadMemory, validation under
 *     the schema parsed before and the context made before, xmlFreeDoc, first without options and then with XML_PARSE_NOBLANKS, which
 *     makes no nodes of white space; expat on the text: XML_ParserReset of a parser made before, one XML_Parse, no handlers.
 * They are measured in turn in short rounds, for so many seconds in all; of all rounds of a measure the one counts that a tenth of
 * them undercut, so that load on the machine and errors of its clock tell little. */
#include <expat.h>
#include <inttypes.h>
#include <libxml/parser.h>
#include <libxml/relaxng.h>
#include <stdarg.h>
#include <stdio.h>
#include <stdlib.h>
#include <time.h>

#include "../../include/cogarrune.h"
#include "floor.h"

enum { TABLE, DOCUMENT, SCHEMA, XML, TEXT, PARTS };
enum { WHOLE, READ_TABLE, READ_DOCUMENT, LEAST, FLOOR, VALIDATE };
enum { TEXT_WHOLE = VALIDATE + 1, READ_TEXT, TEXT_FLOOR, TEXT_VALIDATE, TEXT_NO_BLANKS, TEXT_EXPAT, MEASURES };

struct part {
    unsigned char *bytes;
    size_t length;
};

static uint32_t size;
static size_t words;
static struct part parts[PARTS];
static uint32_t work[COGARRUNE_WORDS_LARGE];
static const uint8_t classes[256] = COGARRUNE_ASCII_CLASSES;
static const uint8_t empty_table[] = {0x1F, 0, 0};
static xmlRelaxNGPtr schema;
static xmlRelaxNGValidCtxtPtr context;
static xmlDocPtr document;
static XML_Parser expat;
static volatile uint64_t sink;

static void quiet(void *data, const char *message, ...) { (void)data, (void)message; }
static void silent(void *data, xmlErrorPtr error) { (void)data, (void)error; }

static double now(void) {
    struct timespec at;
    clock_gettime(CLOCK_MONOTONIC, &at);
    return at.tv_sec + at.tv_nsec * 1e-9;
}

static struct part read_part(FILE *file) {
    struct part part;
    if (fscanf(file, "%zu", &part.length) != 1 || fgetc(file) != '\n') exit(2);
    part.bytes = malloc(part.length + 1);
    if (part.bytes == NULL || fread(part.bytes, 1, part.length, file) != part.length) exit(2);
    return part;
}

static xmlRelaxNGPtr parse_schema(void) {
    xmlRelaxNGParserCtxtPtr parser = xmlRelaxNGNewMemParserCtxt((const char *)parts[SCHEMA].bytes, (int)parts[SCHEMA].length);
    xmlRelaxNGSetParserErrors(parser, quiet, quiet, NULL);
    xmlRelaxNGPtr made = xmlRelaxNGParse(parser);
    xmlRelaxNGFreeParserCtxt(parser);
    return made;
}

static xmlDocPtr parse_document(void) {
    return xmlReadMemory((const char *)parts[XML].bytes, (int)parts[XML].length, NULL, NULL, XML_PARSE_HUGE);
}

/* libxml2 from the text to its verdict: 0 for yes. */
static uint64_t parse_and_validate(struct part text, int options) {
    xmlDocPtr parsed = xmlReadMemory((const char *)text.bytes, (int)text.length, NULL, NULL, options);
    if (parsed == NULL) exit(3);
    int verdict = xmlRelaxNGValidateDoc(context, parsed);
    xmlFreeDoc(parsed);
    return (uint64_t)verdict;
}

static uint64_t parse_alone(struct part text) {
    if (XML_ParserReset(expat, NULL) != XML_TRUE) exit(3);
    return XML_Parse(expat, (const char *)text.bytes, (int)text.length, 1) == XML_STATUS_OK;
}

static uint64_t lets_in(uint32_t format, struct part listed) {
    return cogarrune_lets_in(size, classes, sizeof classes, parts[TABLE].bytes, parts[TABLE].length, format, listed.bytes, listed.length,
                             work, words);
}

static uint64_t floor_on(uint32_t format, struct part listed) {
    return floor_lets_in(size, classes, sizeof classes, parts[TABLE].bytes, parts[TABLE].length, format, listed.bytes, listed.length, work,
                         words);
}

static uint64_t table_reads(const uint8_t *bytes, size_t length) {
    return cogarrune_table_reads(size, classes, sizeof classes, bytes, length, work, words);
}

static uint64_t document_reads(uint32_t format, struct part listed) {
    return cogarrune_document_reads(size, classes, sizeof classes, format, listed.bytes, listed.length, work, words);
}

static void once(int measure) {
    switch (measure) {
    case WHOLE: sink = lets_in(COGARRUNE_DOCUMENT_FILE, parts[DOCUMENT]); break;
    case READ_TABLE: sink = table_reads(parts[TABLE].bytes, parts[TABLE].length); break;
    case READ_DOCUMENT: sink = document_reads(COGARRUNE_DOCUMENT_FILE, parts[DOCUMENT]); break;
    case LEAST: sink = table_reads(empty_table, sizeof empty_table); break;
    case FLOOR: sink = floor_on(COGARRUNE_DOCUMENT_FILE, parts[DOCUMENT]); break;
    case VALIDATE: sink = (uint64_t)xmlRelaxNGValidateDoc(context, document); break;
    case TEXT_WHOLE: sink = lets_in(COGARRUNE_XML_TEXT, parts[TEXT]); break;
    case READ_TEXT: sink = document_reads(COGARRUNE_XML_TEXT, parts[TEXT]); break;
    case TEXT_FLOOR: sink = floor_on(COGARRUNE_XML_TEXT, parts[TEXT]); break;
    case TEXT_VALIDATE: sink = parse_and_validate(parts[TEXT], 0); break;
    case TEXT_NO_BLANKS: sink = parse_and_validate(parts[TEXT], XML_PARSE_NOBLANKS); break;
    case TEXT_EXPAT: sink = parse_alone(parts[TEXT]); break;
    }
}

/* What a measure answers: 1 for yes, 0 for no. */
static unsigned answer_of(int measure) {
    once(measure);
    return measure == VALIDATE || measure == TEXT_VALIDATE || measure == TEXT_NO_BLANKS ? sink == 0 : sink == 1;
}

static double timed(int measure, long repeats) {
    double begin = now();
    for (long i = 0; i < repeats; i++) once(measure);
    return (now() - begin) / repeats;
}

/* About the time of a call: the least of some tries, so that one that the machine held up does not count. */
static double least_of_some(int measure) {
    double least = timed(measure, 10);
    for (int i = 0; i < 20; i++) {
        double again = timed(measure, 10);
        if (again < least) least = again;
    }
    return least;
}

static int ascending(const void *a, const void *b) {
    double x = *(const double *)a, y = *(const double *)b;
    return (x > y) - (x < y);
}

static void measure_file(double seconds) {
    static const int answering[] = {WHOLE, FLOOR, VALIDATE, TEXT_WHOLE, TEXT_FLOOR, TEXT_VALIDATE, TEXT_NO_BLANKS, TEXT_EXPAT};
    const double round_seconds = 150e-6;
    size_t rounds = (size_t)(seconds / MEASURES / round_seconds) + 1;
    long repeats[MEASURES];
    double *spent[MEASURES];
    for (int measure = 0; measure < MEASURES; measure++) {
        repeats[measure] = (long)(round_seconds / (least_of_some(measure) + 1e-9)) + 1;
        spent[measure] = malloc(rounds * sizeof *spent[measure]);
        if (spent[measure] == NULL) exit(2);
    }
    for (size_t round = 0; round < rounds; round++)
        for (int measure = 0; measure < MEASURES; measure++) spent[measure][round] = timed(measure, repeats[measure]);
    for (size_t i = 0; i < sizeof answering / sizeof *answering; i++) printf("%s%u", i == 0 ? "" : " ", answer_of(answering[i]));
    for (int measure = 0; measure < MEASURES; measure++) {
        qsort(spent[measure], rounds, sizeof *spent[measure], ascending);
        printf(" %.9f", spent[measure][rounds / 10]);
        free(spent[measure]);
    }
    printf("\n");
    fflush(stdout);
}

int main(int count, char **arguments) {
    if (count < 3) return 2;
    xmlInitParser();
    xmlSetGenericErrorFunc(NULL, quiet);
    expat = XML_ParserCreate(NULL);
    if (expat == NULL) return 2;
    for (int i = 2; i < count; i++) {
        FILE *file = fopen(arguments[i], "rb");
        if (file == NULL) return 2;
        if (fscanf(file, "%" SCNu32, &size) != 1) return 2;
        words = cogarrune_words_of(size);
        for (int part = 0; part < PARTS; part++) parts[part] = read_part(file);
        fclose(file);
        schema = parse_schema();
        document = parse_document();
        if (schema == NULL || document == NULL) return 3;
        context = xmlRelaxNGNewValidCtxt(schema);
        xmlRelaxNGSetValidErrors(context, quiet, quiet, NULL);
        xmlRelaxNGSetValidStructuredErrors(context, silent, NULL);
        measure_file(atof(arguments[1]));
        xmlRelaxNGFreeValidCtxt(context);
        xmlFreeDoc(document);
        xmlRelaxNGFree(schema);
        for (int part = 0; part < PARTS; part++) free(parts[part].bytes);
    }
    XML_ParserFree(expat);
    return 0;
}
