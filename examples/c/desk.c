/* A desk: reads the text of a sheet from stdin, checks it, and then lists the paths of its flows, performs one operation or
 * runs one flow.
 *
 *   cc -Iinclude examples/c/desk.c crates/fernpocket/out/libfernpocket.a -o desk
 *   ./desk operate 3 0 0=500000 1=1 2=1,1,1 < examples/escrow.txt
 *   ./desk operate 0 0 1.11=0 1.12=0 1@12 0=1 < examples/parcels.txt
 *
 * Facts that are not given take their defaults; a list has none. An entity of which no instance is given has one, numbered 0,
 * in its initial state. Answers go to stdout. Whatever is wrong is said on stderr, and nothing is done then: the exit status
 * is 1 where the library refuses, 2 where the command line or a file is at fault.
 */
#include "fernpocket.h"

#include <errno.h>
#include <inttypes.h>
#include <stdio.h>
#include <stdlib.h>
#include <string.h>

enum { LISTED = 10 }; /* paths of each flow */

/* A fact that is a list: its type, and the word of its record that has its largest length. */
enum { LIST = 5, AT_LARGEST = 7 };

static uint8_t text[FERNPOCKET_MOST_TEXT + 1]; /* one byte more, to see that a text is too long */
static int64_t sheet[FERNPOCKET_MOST_WORDS];
static int64_t values[FERNPOCKET_MOST_FACTS], given[FERNPOCKET_MOST_FACTS];
static int64_t lists[FERNPOCKET_MOST_SLOTS], lengths[FERNPOCKET_MOST_FACTS];
static int64_t wanted[FERNPOCKET_MOST_STEPS];
static uint16_t path[FERNPOCKET_MOST_STEPS];

/* The states: a record for each instance, of these words; one record more than a call takes, to see that there are too many. */
enum { ENTITY, INSTANCE, STATE, RECORD = FERNPOCKET_INSTANCE_WORDS };
static int64_t states[RECORD * (FERNPOCKET_MOST_INSTANCES + 1)];
static size_t states_len;
static int64_t instances[FERNPOCKET_MOST_ENTITIES]; /* of each entity the instance that is meant */

static const char *const wrong[] = {
    [FERNPOCKET_REFUSED_HEADER] = "the header or the sheet's length is wrong",
    [FERNPOCKET_REFUSED_GROUP] = "the counts of a group's owners do not add up to the table's count",
    [FERNPOCKET_REFUSED_RECORD] = "this record is bad (in the text: line place + 3, counted from 1)",
    [FERNPOCKET_REFUSED_LENGTH] = "a slice has the wrong length",
    [FERNPOCKET_REFUSED_MISSING] = "there is no such persona, operation, outcome, flow, entity, instance, state, rule or node",
    [FERNPOCKET_REFUSED_FACT_VALUE] = "this fact is given wrongly: its flag, value, length or an element is out of range",
    [FERNPOCKET_REFUSED_FACT_ABSENT] = "this fact is not given and has no default",
    [FERNPOCKET_REFUSED_STATE] = "this record of the states is not above the one before it, or its entity or state does not exist",
    [FERNPOCKET_REFUSED_PERSONA] = "the persona may not perform the operation",
    [FERNPOCKET_REFUSED_PRECONDITION] = "the operation's precondition is false",
    [FERNPOCKET_REFUSED_NO_OUTCOME] = "this entity is in no state that the outcome starts from",
    [FERNPOCKET_REFUSED_NOT_PATH] = "the buffer does not begin with a path of the flow",
    [FERNPOCKET_REFUSED_LAST_PATH] = "no path follows the one in the buffer",
    [FERNPOCKET_REFUSED_LINE] = "this line is bad (line place + 1, counted from 1)",
    [FERNPOCKET_REFUSED_NO_ROOM] = "the output is shorter than the result",
    [FERNPOCKET_REFUSED_MANY_OUTCOMES] = "several outcomes apply to the present states, and none is wanted",
};

/* Hands an answer on. A refusal ends the program, so that no later line works with what was not answered. */
static fernpocket_answer unrefused(const char *call, fernpocket_answer answer)
{
    if (answer.refusal != 0) {
        int known = answer.refusal >= FERNPOCKET_REFUSED_HEADER && answer.refusal <= FERNPOCKET_REFUSED_MANY_OUTCOMES;
        fprintf(stderr, "desk: %s: refused %" PRId64 " at %" PRId64 ": %s\n", call, answer.refusal, answer.place,
                known ? wrong[answer.refusal] : "this program is older than the library");
        exit(1);
    }
    return answer;
}

/* A refusal 11 in more words: which entity stands in the way of which outcome. */
static fernpocket_answer unblocked(fernpocket_answer answer, int64_t wanted_outcome)
{
    if (answer.refusal == FERNPOCKET_REFUSED_NO_OUTCOME) {
        int none = wanted_outcome == -1;
        fprintf(stderr, "desk: operate: refused 11 at %" PRId64 ": %sentity %" PRId64 " is in no state that outcome %" PRId64
                " starts from\n", answer.place, none ? "no outcome applies, and " : "", answer.place,
                none ? 0 : wanted_outcome);
        exit(1);
    }
    return answer;
}

static void usage(void)
{
    fputs("usage: desk < SHEET                     check the sheet, list the first paths of each flow\n"
          "       desk operate PERSONA OPERATION [OUTCOME] [INSTANCES...] [FACT=VALUE...] < SHEET\n"
          "       desk run FLOW [STEP:OUTCOME...] [INSTANCES...] [FACT=VALUE...] < SHEET\n"
          "SHEET is a file, every other word in capitals a number. A sheet has no names: its personas, operations,\n"
          "outcomes, flows and facts are numbered from 0, the steps of a flow from its first. OUTCOME is the wanted one;\n"
          "without it the only outcome that applies is taken. The VALUE of a list is its elements with commas between\n"
          "them, as in 2=1,0,1, or nothing, as in 2=, where it is empty.\n"
          "INSTANCES are ENTITY.INSTANCE=STATE, an instance of an entity and its state, and ENTITY@INSTANCE, the one that\n"
          "is meant, 0 unless said. An entity of which none is given has one, numbered 0, in its initial state.\n",
          stderr);
    exit(2);
}

/* The number that stands from `word` up to `end`. Names, empty words, other characters and numbers outside low..high end the
 * program: strtoll alone would make a 0 of a name. */
static int64_t number(const char *what, const char *word, const char *end, int64_t low, int64_t high)
{
    const char *digits = word + (*word == '-');
    char *stop;
    errno = 0;
    long long value = strtoll(word, &stop, 10);
    if (*digits < '0' || *digits > '9' || stop != end || errno != 0 || value < low || value > high) {
        fprintf(stderr, "desk: %s is \"%.*s\": it must be a whole number, %" PRId64 " to %" PRId64 "\n", what,
                (int)(end - word), word, low, high);
        exit(2);
    }
    return value;
}

/* A persona, an operation, an outcome or a flow; the library says whether there is such a one. */
static int64_t named(const char *what, const char *word)
{
    return number(what, word, word + strlen(word), 0, FERNPOCKET_LARGEST_NUMBER);
}

/* Takes the words STEP:OUTCOME, and hands on the first word that is no such one. */
static char **want(char **words, size_t steps)
{
    const char *colon;
    for (; *words != NULL && (colon = strchr(*words, ':')) != NULL; words++) {
        size_t step = (size_t)number("STEP", *words, colon, 0, FERNPOCKET_LARGEST_NUMBER);
        if (step >= steps || wanted[step] != -1) {
            fprintf(stderr, "desk: step %zu %s\n", step, step >= steps ? "is not in the flow" : "is named twice");
            exit(2);
        }
        wanted[step] = named("OUTCOME", colon + 1);
    }
    return words;
}

/* A number of a fact or of a list. */
static int64_t value_of(const char *what, const char *word, const char *end)
{
    return number(what, word, end, -(int64_t)FERNPOCKET_LARGEST_NUMBER, FERNPOCKET_LARGEST_NUMBER);
}

/* The largest length of a fact of the accepted sheet that is a list; -1 of another fact. The facts stand first. */
static int64_t largest(size_t fact)
{
    const int64_t *record = sheet + FERNPOCKET_HEADER_WORDS + FERNPOCKET_RECORD_WORDS * fact;
    return record[0] == LIST ? record[AT_LARGEST] : -1;
}

/* How many of the facts before this one are lists, and how many slots those have. */
typedef struct {
    size_t lists, slots;
} room;

static room before(size_t fact)
{
    room all = {0, 0};
    for (size_t i = 0; i < fact; i++)
        if (largest(i) >= 0) {
            all.lists++;
            all.slots += (size_t)largest(i);
        }
    return all;
}

/* Takes the elements of a list, numbers with commas between them. More than there is room for are counted and not kept: the
 * library refuses such a length. */
static void give_list(size_t fact, const char *word)
{
    room own = before(fact);
    int64_t length = 0;
    for (int more = *word != '\0'; more; length++) {
        const char *end = word + strcspn(word, ",");
        int64_t element = value_of("ELEMENT", word, end);
        if (length < largest(fact))
            lists[own.slots + (size_t)length] = element;
        more = *end == ',';
        word = end + 1;
    }
    lengths[own.lists] = length;
}

/* Takes FACT=VALUE. */
static void give_fact(const char *word, const char *equals, size_t facts)
{
    size_t fact = (size_t)number("FACT", word, equals, 0, FERNPOCKET_LARGEST_NUMBER);
    if (fact >= facts || given[fact]) {
        fprintf(stderr, "desk: fact %zu %s\n", fact, fact >= facts ? "is not in the sheet" : "is given twice");
        exit(2);
    }
    if (largest(fact) >= 0)
        give_list(fact, equals + 1);
    else
        values[fact] = value_of("VALUE", equals + 1, equals + strlen(equals));
    given[fact] = 1;
}

/* Puts a record after the others. More than there is room for are not kept: the library refuses so many. */
static void put(int64_t entity, int64_t instance, int64_t state)
{
    if (states_len == RECORD * (FERNPOCKET_MOST_INSTANCES + 1))
        return;
    states[states_len + ENTITY] = entity;
    states[states_len + INSTANCE] = instance;
    states[states_len + STATE] = state;
    states_len += RECORD;
}

/* Takes ENTITY.INSTANCE=STATE. The library says whether there are such an entity and such a state. */
static void give_instance(const char *word, const char *dot, const char *equals)
{
    int64_t entity = number("ENTITY", word, dot, 0, FERNPOCKET_LARGEST_NUMBER);
    int64_t instance = number("INSTANCE", dot + 1, equals, INT64_MIN, INT64_MAX);
    put(entity, instance, value_of("STATE", equals + 1, equals + strlen(equals)));
}

/* Takes ENTITY@INSTANCE. */
static void name(const char *word, const char *at, size_t entities)
{
    static int named_already[FERNPOCKET_MOST_ENTITIES];
    size_t entity = (size_t)number("ENTITY", word, at, 0, FERNPOCKET_LARGEST_NUMBER);
    if (entity >= entities || named_already[entity]++) {
        fprintf(stderr, "desk: entity %zu %s\n", entity, entity >= entities ? "is not in the sheet" : "is named twice");
        exit(2);
    }
    instances[entity] = number("INSTANCE", at + 1, at + strlen(at), INT64_MIN, INT64_MAX);
}

/* By entity, then by instance number. */
static int order(const void *left, const void *right)
{
    const int64_t *a = left, *b = right;
    int word = a[ENTITY] == b[ENTITY] ? INSTANCE : ENTITY;
    return (a[word] > b[word]) - (a[word] < b[word]);
}

/* The records of the entities of the accepted sheet. They stand after facts, nodes and rules. */
static const int64_t *entity_record(size_t entity)
{
    int64_t before = sheet[FERNPOCKET_AT_FACTS] + sheet[FERNPOCKET_AT_NODES] + sheet[FERNPOCKET_AT_RULES];
    return sheet + FERNPOCKET_HEADER_WORDS + FERNPOCKET_RECORD_WORDS * ((size_t)before + entity);
}

/* Gives an instance, numbered 0, to each entity that has none, and sorts the records. */
static void complete(size_t entities)
{
    static int has[FERNPOCKET_MOST_ENTITIES];
    for (size_t i = 0; i < states_len; i += RECORD)
        if (states[i + ENTITY] < (int64_t)entities)
            has[states[i + ENTITY]] = 1;
    for (size_t i = 0; i < entities; i++)
        if (!has[i])
            put((int64_t)i, 0, entity_record(i)[1]);
    qsort(states, states_len / RECORD, RECORD * sizeof *states, order);
}

/* Takes the words on facts and instances. */
static void give(char **words, size_t facts, size_t entities)
{
    for (; *words != NULL; words++) {
        const char *at = strchr(*words, '@'), *equals = strchr(*words, '='), *dot = strchr(*words, '.');
        if (at != NULL) {
            name(*words, at, entities);
        } else if (equals == NULL) {
            fprintf(stderr, "desk: \"%s\" is not of the form FACT=VALUE\n", *words);
            exit(2);
        } else if (dot != NULL && dot < equals) {
            give_instance(*words, dot, equals);
        } else {
            give_fact(*words, equals, facts);
        }
    }
    complete(entities);
}

/* How many steps a flow of the accepted sheet has; 0 where there is no such flow. The flows stand after seven tables. */
static size_t steps_of(int64_t flow)
{
    int64_t record = flow;
    for (int count = FERNPOCKET_AT_FACTS; count < FERNPOCKET_AT_FLOWS; count++)
        record += sheet[count];
    if (flow >= sheet[FERNPOCKET_AT_FLOWS])
        return 0;
    return (size_t)sheet[FERNPOCKET_HEADER_WORDS + FERNPOCKET_RECORD_WORDS * record + 1];
}

static void print_path(int64_t flow, fernpocket_answer answer)
{
    static const char *const terminals[] = {"success", "failure", "escalation"};
    printf("flow %" PRId64 ", %s:", flow, terminals[answer.value]);
    for (int64_t i = 0; i < answer.count; i++)
        printf(" %d", (int)path[i]);
    printf("\n");
}

/* The states alone where each entity has one instance, numbered 0; else ENTITY.INSTANCE=STATE. */
static void print_states(size_t entities)
{
    int one_each = states_len == RECORD * entities;
    for (size_t i = 0; i < states_len; i += RECORD)
        one_each = one_each && states[i + ENTITY] == (int64_t)(i / RECORD) && states[i + INSTANCE] == 0;
    printf("states:");
    for (size_t i = 0; i < states_len; i += RECORD)
        if (one_each)
            printf(" %" PRId64, states[i + STATE]);
        else
            printf(" %" PRId64 ".%" PRId64 "=%" PRId64, states[i + ENTITY], states[i + INSTANCE], states[i + STATE]);
    printf("\n");
}

static void list(size_t sheet_len)
{
    for (int64_t flow = 0; flow < sheet[FERNPOCKET_AT_FLOWS]; flow++) {
        fernpocket_answer answer = fernpocket_first(sheet, sheet_len, flow, path, FERNPOCKET_MOST_STEPS);
        for (int i = 0; i < LISTED && answer.refusal != FERNPOCKET_REFUSED_LAST_PATH; i++) {
            print_path(flow, unrefused("list", answer));
            answer = fernpocket_next(sheet, sheet_len, flow, path, FERNPOCKET_MOST_STEPS);
        }
    }
}

int main(int argc, char **argv)
{
    int operate = argc >= 4 && strcmp(argv[1], "operate") == 0, run = argc >= 3 && strcmp(argv[1], "run") == 0;
    if (argc != 1 && !operate && !run)
        usage();

    size_t text_len = fread(text, 1, sizeof text, stdin);
    if (ferror(stdin) || text_len == sizeof text) {
        fputs("desk: the sheet cannot be read, or is longer than the text of any sheet\n", stderr);
        return 2;
    }
    size_t sheet_len = (size_t)unrefused("read", fernpocket_read_text(text, text_len, sheet, FERNPOCKET_MOST_WORDS)).value;
    unrefused("check", fernpocket_check(sheet, sheet_len));

    /* The sheet is accepted, so its counts are within the limits. */
    size_t facts = (size_t)sheet[FERNPOCKET_AT_FACTS], entities = (size_t)sheet[FERNPOCKET_AT_ENTITIES];
    room all = before(facts);

    if (operate) {
        int64_t persona = named("PERSONA", argv[2]), operation = named("OPERATION", argv[3]);
        int outcome = argc >= 5 && strpbrk(argv[4], "=@") == NULL;
        int64_t wanted_outcome = outcome ? named("OUTCOME", argv[4]) : -1;
        give(argv + 4 + outcome, facts, entities);
        fernpocket_answer answer = fernpocket_operate(sheet, sheet_len, values, facts, given, facts, lists, all.slots,
                                                      lengths, all.lists, states, states_len, instances, entities,
                                                      persona, operation, wanted_outcome);
        printf("outcome %" PRId64 "\n", unrefused("operate", unblocked(answer, wanted_outcome)).value);
        print_states(entities);
    } else if (run) {
        int64_t flow = named("FLOW", argv[2]);
        size_t steps = steps_of(flow);
        for (size_t i = 0; i < steps; i++)
            wanted[i] = -1;
        give(want(argv + 3, steps), facts, entities);
        fernpocket_answer answer = fernpocket_run(sheet, sheet_len, values, facts, given, facts, lists, all.slots, lengths,
                                                  all.lists, states, states_len, instances, entities, flow, wanted,
                                                  steps, path, FERNPOCKET_MOST_STEPS);
        print_path(flow, unrefused("run", answer));
        print_states(entities);
    } else {
        printf("accepted: %zu words\n", sheet_len);
        list(sheet_len);
    }
    if (fflush(stdout) != 0) {
        fputs("desk: the answer cannot be written\n", stderr);
        return 2;
    }
    return 0;
}
