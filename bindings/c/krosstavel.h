/*
 * krosstavel: the tree builder of a live-migration gate.
 *
 * Tokens go in as a list of kind numbers and a list of their byte lengths. The syntax tree comes out as rows of four numbers in a table that the
 * caller lends, or the input is refused with a number and a place. There is no lexer here: the caller's tokens are what is parsed.
 *
 * The calls are proved to give, for every input, the number, the place, the row count, every element of the table and every field of a night's
 * records that the definition gives. Link the archive that `tools/archive krosstavel.a` makes; it needs `memset` from outside and no more:
 *
 *     cc program.c krosstavel.a -o program
 *
 * Costs: on every list that was measured, time grew as the tokens did. No call takes memory of its own, keeps a pointer, has a state between calls or touches anything
 * but its arguments, so calls on different tables may run at the same time. Of stack, 340 KiB were seen at the most, at a depth limit of 256: a thread
 * that has less must give a smaller limit.
 */
#ifndef KROSSTAVEL_H
#define KROSSTAVEL_H

#include <stddef.h>
#include <stdint.h>

#ifdef __cplusplus
extern "C" {
#endif

/* The sizes that a call takes. */
#define KROSSTAVEL_MOST_TOKENS 65535
#define KROSSTAVEL_MOST_BYTES 16777216
#define KROSSTAVEL_DEEPEST 256
#define KROSSTAVEL_MOST_JOBS 400 /* of krosstavel_batch */

/* Elements of the table that a row has, and where each stands in it. */
#define KROSSTAVEL_ROW 4
#define KROSSTAVEL_ROW_KIND 0   /* the token's number as it was given, or the node's */
#define KROSSTAVEL_ROW_BACK 1   /* how many rows just before this one are its subtree; 0 for a token and for an empty node */
#define KROSSTAVEL_ROW_START 2  /* the first byte, counted from the first token's beginning */
#define KROSSTAVEL_ROW_LENGTH 3 /* the sum of the lengths of the tokens below */

/*
 * Elements of a table that was large enough for every list of so many tokens that was tried: six rows a token and two more. That it always is, is not
 * proved; a table that is too small gives KROSSTAVEL_REFUSED_ROOM.
 */
#define KROSSTAVEL_ROOM(tokens) ((6 * (size_t)(tokens) + 2) * KROSSTAVEL_ROW)

/* What a call answers. */
struct krosstavel_answer {
    uint32_t number; /* 0: accepted; else why it was refused, an enum krosstavel_refused */
    uint32_t place;  /* the index of the token where it was refused, or the token count for the end; 0 if accepted */
    uint32_t rows;   /* how many rows were written; 0 if refused */
};

/*
 * Why an input was refused. 1 to 5 are tried in that order, over the whole input; of 6 to 11 the first that the parse meets is given. 12 comes from
 * krosstavel_batch alone, which tries it before the others.
 */
enum krosstavel_refused {
    KROSSTAVEL_REFUSED_SETTING = 1,    /* the depth limit is not 1 to 256, or the separator is no token or is trivia; place 0 */
    KROSSTAVEL_REFUSED_LENGTHS = 2,    /* the list of kinds and the list of lengths differ in length; place 0 */
    KROSSTAVEL_REFUSED_COUNT = 3,      /* there are more than 65,535 tokens; place 0 */
    KROSSTAVEL_REFUSED_TOKEN_KIND = 4, /* a kind is not 1 to 127; the first such */
    KROSSTAVEL_REFUSED_TOTAL = 5,      /* the tokens have more than 16,777,216 bytes in all; the first that passes it */
    KROSSTAVEL_REFUSED_EXPRESSION = 6, /* an expression should stand here */
    KROSSTAVEL_REFUSED_GROUPING = 7,   /* two operators that bind alike claim this operand and neither comes first, as b in a == b == c */
    KROSSTAVEL_REFUSED_STREAM = 8,     /* a bracket of a macro call or an attribute is still open at the end */
    KROSSTAVEL_REFUSED_STUCK = 9,      /* no statement begins here */
    KROSSTAVEL_REFUSED_DEPTH = 10,     /* nested deeper than the depth limit allows */
    KROSSTAVEL_REFUSED_ROOM = 11,      /* the table has no row left */
    KROSSTAVEL_REFUSED_JOB = 12        /* a job's range is outside the lists or its entry is none of the three, or there are more than 400 jobs; place 0 */
};

/*
 * The calls of a single entry take the same first arguments:
 *
 *   kinds, kinds_len   the tokens' kinds, each 1 to 127
 *   lens, lens_len     the tokens' byte lengths, as many; a token may have length 0
 *   table, table_len   where the tree goes, and how many uint32_t there are; what they hold before does not matter
 *   limit              the deepest nesting of rules that is taken, 1 to 256
 *
 * The caller owes what C cannot say: each pointer is that of as many elements as its length says, aligned as its type is, not NULL even if the length is
 * 0, and the table overlaps neither list. Beyond that nothing is asked: any lists, table, limit and separator have an answer.
 *
 * After acceptance the table holds the rows, each node's after all rows of its subtree and Root's last, and then zeros. After a refusal it holds zeros.
 */

/* Statements: a script. */
struct krosstavel_answer krosstavel_root(
    const uint8_t *kinds, size_t kinds_len, const uint32_t *lens, size_t lens_len, uint32_t *table, size_t table_len, uint32_t limit);

/* Expressions with a separator between them, the number of a token's kind (KROSSTAVEL_KIND_COMMA): guards. */
struct krosstavel_answer krosstavel_exprs(const uint8_t *kinds, size_t kinds_len, const uint32_t *lens, size_t lens_len, uint32_t *table,
    size_t table_len, uint32_t separator, uint32_t limit);

/* One expression, then every other token as it is: the inside of a format. */
struct krosstavel_answer krosstavel_format(
    const uint8_t *kinds, size_t kinds_len, const uint32_t *lens, size_t lens_len, uint32_t *table, size_t table_len, uint32_t limit);

/* The entry of a job, by number. */
enum krosstavel_entry {
    KROSSTAVEL_ENTRY_ROOT = 0,  /* as krosstavel_root */
    KROSSTAVEL_ENTRY_EXPRS = 1, /* as krosstavel_exprs */
    KROSSTAVEL_ENTRY_FORMAT = 2 /* as krosstavel_format */
};

/* A job of a night: what is asked, which stays as it is, and what the job came to. */
struct krosstavel_job {
    uint32_t entry;                  /* an enum krosstavel_entry */
    uint32_t separator;              /* of KROSSTAVEL_ENTRY_EXPRS; not looked at for the others */
    uint32_t limit;                  /* the depth limit */
    uint32_t first;                  /* the index of its first token in the shared lists */
    uint32_t count;                  /* how many tokens it has */
    struct krosstavel_answer answer; /* written by the call; what it holds before does not matter */
};

/*
 * A night's worth of scripts at once: jobs, each a range of tokens in lists that all of them share, parsed in order into one table.
 *
 *   kinds, kinds_len   the kinds of all tokens
 *   lens, lens_len     their byte lengths, as many. The lists may be longer than KROSSTAVEL_MOST_TOKENS: that bounds each job's count
 *   jobs, jobs_len     the records, at most KROSSTAVEL_MOST_JOBS. Ranges may overlap and need not cover the lists
 *   table, table_len   where the trees go
 *
 * Each job's answer is that of its entry's own call on the tokens `first` to `first + count` (added without wrapping) and on the elements of the table
 * behind the rows taken so far. An accepted job takes the rows that its answer counts, a refused one takes none. So the rows of the accepted jobs stand
 * in the table one job right behind the other, and job k's begin at element KROSSTAVEL_ROW times the sum of `answer.rows` over the jobs before it. What
 * no job takes ends as zeros. Places and start bytes count from the job's own first token.
 *
 * A job whose range is not inside the lists, or whose entry is none of the three, is refused with KROSSTAVEL_REFUSED_JOB at place 0 before anything
 * else of it is looked at. `first` at the lists' end with a count of 0 is inside. The jobs behind it run as if it were not there.
 *
 * What comes back is the answer to the whole call. It is refused, at place 0, with KROSSTAVEL_REFUSED_JOB if there are more than KROSSTAVEL_MOST_JOBS
 * jobs, and else with KROSSTAVEL_REFUSED_LENGTHS if the lists differ in length: then the table holds zeros and no record was changed. Otherwise number
 * and place are 0, whatever the jobs came to, and `rows` is the sum of all jobs' rows. (It would stay at 4,294,967,295 if they were more, for which a
 * table below 64 GiB has no room.) No jobs at all are 0, 0, 0 and a table of zeros.
 *
 * The caller owes the same as above for the four lists. The records and the table overlap neither each other nor the lists.
 */
struct krosstavel_answer krosstavel_batch(const uint8_t *kinds, size_t kinds_len, const uint32_t *lens, size_t lens_len, struct krosstavel_job *jobs,
    size_t jobs_len, uint32_t *table, size_t table_len);

/*
 * The kinds: the list of docs/KINDS.md, which `tools/check-kinds` holds this one to. Numbers 1 to 127 are tokens, from 128 up nodes. A token's number that
 * no kind has is treated as KROSSTAVEL_KIND_OTHER and keeps its number in its row.
 */
enum krosstavel_kind {
    KROSSTAVEL_KIND_IDENT = 1, /* ident */
    KROSSTAVEL_KIND_COLON_COLON = 2, /* :: */
    KROSSTAVEL_KIND_SUPER = 3, /* super */
    KROSSTAVEL_KIND_CRATE = 4, /* crate */
    KROSSTAVEL_KIND_SELF_VALUE = 5, /* self */
    KROSSTAVEL_KIND_SELF_TYPE = 6, /* Self */
    KROSSTAVEL_KIND_TRUE = 7, /* true */
    KROSSTAVEL_KIND_FALSE = 8, /* false */
    KROSSTAVEL_KIND_NUMBER = 9, /* number */
    KROSSTAVEL_KIND_STR = 10, /* str */
    KROSSTAVEL_KIND_BYTE_STR = 11, /* bytestr */
    KROSSTAVEL_KIND_CHAR = 12, /* char */
    KROSSTAVEL_KIND_BYTE = 13, /* byte */
    KROSSTAVEL_KIND_WHITESPACE = 14, /* Whitespace */
    KROSSTAVEL_KIND_COMMENT = 15, /* Comment */
    KROSSTAVEL_KIND_MULTILINE_COMMENT = 16, /* MultilineComment */
    KROSSTAVEL_KIND_OTHER = 17, /* Other */
    KROSSTAVEL_KIND_OPEN_PAREN = 18, /* '(' */
    KROSSTAVEL_KIND_CLOSE_PAREN = 19, /* ')' */
    KROSSTAVEL_KIND_OPEN_BRACKET = 20, /* '[' */
    KROSSTAVEL_KIND_CLOSE_BRACKET = 21, /* ']' */
    KROSSTAVEL_KIND_OPEN_BRACE = 22, /* '{' */
    KROSSTAVEL_KIND_CLOSE_BRACE = 23, /* '}' */
    KROSSTAVEL_KIND_COMMA = 24, /* , */
    KROSSTAVEL_KIND_DOT = 25, /* . */
    KROSSTAVEL_KIND_SEMICOLON = 26, /* ; */
    KROSSTAVEL_KIND_COLON = 27, /* : */
    KROSSTAVEL_KIND_EQUAL = 28, /* = */
    KROSSTAVEL_KIND_BANG = 29, /* ! */
    KROSSTAVEL_KIND_DASH = 30, /* - */
    KROSSTAVEL_KIND_AMP = 31, /* & */
    KROSSTAVEL_KIND_STAR = 32, /* * */
    KROSSTAVEL_KIND_QUESTION_MARK = 33, /* ? */
    KROSSTAVEL_KIND_LABEL = 34, /* 'label */
    KROSSTAVEL_KIND_POUND = 35, /* # */
    KROSSTAVEL_KIND_LT = 36, /* < */
    KROSSTAVEL_KIND_GT = 37, /* > */
    KROSSTAVEL_KIND_PLUS = 38, /* + */
    KROSSTAVEL_KIND_SLASH = 39, /* / */
    KROSSTAVEL_KIND_PERCENT = 40, /* % */
    KROSSTAVEL_KIND_EQ_EQ = 41, /* == */
    KROSSTAVEL_KIND_BANG_EQ = 42, /* != */
    KROSSTAVEL_KIND_LT_EQ = 43, /* <= */
    KROSSTAVEL_KIND_GT_EQ = 44, /* >= */
    KROSSTAVEL_KIND_AMP_AMP = 45, /* && */
    KROSSTAVEL_KIND_PIPE_PIPE = 46, /* || */
    KROSSTAVEL_KIND_LT_LT = 47, /* << */
    KROSSTAVEL_KIND_GT_GT = 48, /* >> */
    KROSSTAVEL_KIND_CARET = 49, /* ^ */
    KROSSTAVEL_KIND_PIPE = 50, /* | */
    KROSSTAVEL_KIND_AS = 51, /* as */
    KROSSTAVEL_KIND_IS = 52, /* is */
    KROSSTAVEL_KIND_NOT = 53, /* not */
    KROSSTAVEL_KIND_PLUS_EQ = 54, /* += */
    KROSSTAVEL_KIND_DASH_EQ = 55, /* -= */
    KROSSTAVEL_KIND_STAR_EQ = 56, /* *= */
    KROSSTAVEL_KIND_SLASH_EQ = 57, /* /= */
    KROSSTAVEL_KIND_PERCENT_EQ = 58, /* %= */
    KROSSTAVEL_KIND_AMP_EQ = 59, /* &= */
    KROSSTAVEL_KIND_CARET_EQ = 60, /* ^= */
    KROSSTAVEL_KIND_PIPE_EQ = 61, /* |= */
    KROSSTAVEL_KIND_LT_LT_EQ = 62, /* <<= */
    KROSSTAVEL_KIND_GT_GT_EQ = 63, /* >>= */
    KROSSTAVEL_KIND_DOT_DOT = 64, /* .. */
    KROSSTAVEL_KIND_DOT_DOT_EQ = 65, /* ..= */
    KROSSTAVEL_KIND_ARROW = 66, /* => */
    KROSSTAVEL_KIND_UNDERSCORE = 67, /* _ */
    KROSSTAVEL_KIND_OPEN_EMPTY = 68, /* OpenEmpty */
    KROSSTAVEL_KIND_CLOSE_EMPTY = 69, /* CloseEmpty */
    KROSSTAVEL_KIND_TEMPLATE_STRING = 70, /* TemplateString */
    KROSSTAVEL_KIND_ASYNC = 71, /* async */
    KROSSTAVEL_KIND_AWAIT = 72, /* await */
    KROSSTAVEL_KIND_BREAK = 73, /* break */
    KROSSTAVEL_KIND_CONST = 74, /* const */
    KROSSTAVEL_KIND_CONTINUE = 75, /* continue */
    KROSSTAVEL_KIND_DEFAULT = 76, /* default */
    KROSSTAVEL_KIND_ELSE = 77, /* else */
    KROSSTAVEL_KIND_ENUM = 78, /* enum */
    KROSSTAVEL_KIND_FN = 79, /* fn */
    KROSSTAVEL_KIND_FOR = 80, /* for */
    KROSSTAVEL_KIND_IF = 81, /* if */
    KROSSTAVEL_KIND_IMPL = 82, /* impl */
    KROSSTAVEL_KIND_IN = 83, /* in */
    KROSSTAVEL_KIND_LET = 84, /* let */
    KROSSTAVEL_KIND_LOOP = 85, /* loop */
    KROSSTAVEL_KIND_MATCH = 86, /* match */
    KROSSTAVEL_KIND_MOD = 87, /* mod */
    KROSSTAVEL_KIND_MOVE = 88, /* move */
    KROSSTAVEL_KIND_PUB = 89, /* pub */
    KROSSTAVEL_KIND_RETURN = 90, /* return */
    KROSSTAVEL_KIND_SELECT = 91, /* select */
    KROSSTAVEL_KIND_STRUCT = 92, /* struct */
    KROSSTAVEL_KIND_USE = 93, /* use */
    KROSSTAVEL_KIND_WHILE = 94, /* while */
    KROSSTAVEL_KIND_YIELD = 95, /* yield */

    KROSSTAVEL_KIND_ROOT = 128, /* Root */
    KROSSTAVEL_KIND_EXPR = 129, /* Expr */
    KROSSTAVEL_KIND_ERROR = 130, /* Error */
    KROSSTAVEL_KIND_LOCAL = 131, /* Local */
    KROSSTAVEL_KIND_ITEM = 132, /* Item */
    KROSSTAVEL_KIND_ITEM_CONST = 133, /* ItemConst */
    KROSSTAVEL_KIND_ITEM_ENUM = 134, /* ItemEnum */
    KROSSTAVEL_KIND_ITEM_FILE_MOD = 135, /* ItemFileMod */
    KROSSTAVEL_KIND_ITEM_FN = 136, /* ItemFn */
    KROSSTAVEL_KIND_ITEM_IMPL = 137, /* ItemImpl */
    KROSSTAVEL_KIND_ITEM_MOD = 138, /* ItemMod */
    KROSSTAVEL_KIND_ITEM_STRUCT = 139, /* ItemStruct */
    KROSSTAVEL_KIND_ITEM_USE = 140, /* ItemUse */
    KROSSTAVEL_KIND_ITEM_USE_GROUP = 141, /* ItemUseGroup */
    KROSSTAVEL_KIND_ITEM_USE_PATH = 142, /* ItemUsePath */
    KROSSTAVEL_KIND_INNER_ATTRIBUTE = 143, /* InnerAttribute */
    KROSSTAVEL_KIND_ATTRIBUTE = 144, /* Attribute */
    KROSSTAVEL_KIND_TOKEN_STREAM = 145, /* TokenStream */
    KROSSTAVEL_KIND_MODIFIERS = 146, /* Modifiers */
    KROSSTAVEL_KIND_MODIFIER_SUPER = 147, /* ModifierSuper */
    KROSSTAVEL_KIND_MODIFIER_SELF = 148, /* ModifierSelf */
    KROSSTAVEL_KIND_MODIFIER_CRATE = 149, /* ModifierCrate */
    KROSSTAVEL_KIND_MODIFIER_IN = 150, /* ModifierIn */
    KROSSTAVEL_KIND_EMPTY_BODY = 151, /* EmptyBody */
    KROSSTAVEL_KIND_STRUCT_BODY = 152, /* StructBody */
    KROSSTAVEL_KIND_TUPLE_BODY = 153, /* TupleBody */
    KROSSTAVEL_KIND_FIELD = 154, /* Field */
    KROSSTAVEL_KIND_VARIANT = 155, /* Variant */
    KROSSTAVEL_KIND_FN_ARGS = 156, /* FnArgs */
    KROSSTAVEL_KIND_PAT = 157, /* Pat */
    KROSSTAVEL_KIND_PAT_ARRAY = 158, /* PatArray */
    KROSSTAVEL_KIND_PAT_IGNORE = 159, /* PatIgnore */
    KROSSTAVEL_KIND_PAT_OBJECT = 160, /* PatObject */
    KROSSTAVEL_KIND_PAT_TUPLE = 161, /* PatTuple */
    KROSSTAVEL_KIND_ANONYMOUS_OBJECT_KEY = 162, /* AnonymousObjectKey */
    KROSSTAVEL_KIND_PATH = 163, /* Path */
    KROSSTAVEL_KIND_PATH_GENERICS = 164, /* PathGenerics */
    KROSSTAVEL_KIND_LIT = 165, /* Lit */
    KROSSTAVEL_KIND_TEMPLATE = 166, /* TemplateString */
    KROSSTAVEL_KIND_BLOCK = 167, /* Block */
    KROSSTAVEL_KIND_BLOCK_BODY = 168, /* BlockBody */
    KROSSTAVEL_KIND_CONDITION = 169, /* Condition */
    KROSSTAVEL_KIND_CLOSURE_ARGUMENTS = 170, /* ClosureArguments */
    KROSSTAVEL_KIND_EXPR_ARRAY = 171, /* ExprArray */
    KROSSTAVEL_KIND_EXPR_ASSIGN = 172, /* ExprAssign */
    KROSSTAVEL_KIND_EXPR_AWAIT = 173, /* ExprAwait */
    KROSSTAVEL_KIND_EXPR_BINARY = 174, /* ExprBinary */
    KROSSTAVEL_KIND_EXPR_BREAK = 175, /* ExprBreak */
    KROSSTAVEL_KIND_EXPR_CALL = 176, /* ExprCall */
    KROSSTAVEL_KIND_EXPR_CHAIN = 177, /* ExprChain */
    KROSSTAVEL_KIND_EXPR_CLOSURE = 178, /* ExprClosure */
    KROSSTAVEL_KIND_EXPR_CONTINUE = 179, /* ExprContinue */
    KROSSTAVEL_KIND_EXPR_ELSE = 180, /* ExprElse */
    KROSSTAVEL_KIND_EXPR_ELSE_IF = 181, /* ExprElseIf */
    KROSSTAVEL_KIND_EXPR_EMPTY_GROUP = 182, /* ExprEmptyGroup */
    KROSSTAVEL_KIND_EXPR_FIELD = 183, /* ExprField */
    KROSSTAVEL_KIND_EXPR_FOR = 184, /* ExprFor */
    KROSSTAVEL_KIND_EXPR_GROUP = 185, /* ExprGroup */
    KROSSTAVEL_KIND_EXPR_IF = 186, /* ExprIf */
    KROSSTAVEL_KIND_EXPR_INDEX = 187, /* ExprIndex */
    KROSSTAVEL_KIND_EXPR_LOOP = 188, /* ExprLoop */
    KROSSTAVEL_KIND_EXPR_MACRO_CALL = 189, /* ExprMacroCall */
    KROSSTAVEL_KIND_EXPR_MATCH = 190, /* ExprMatch */
    KROSSTAVEL_KIND_EXPR_MATCH_ARM = 191, /* ExprMatchArm */
    KROSSTAVEL_KIND_EXPR_OBJECT = 192, /* ExprObject */
    KROSSTAVEL_KIND_EXPR_OPERATOR = 193, /* ExprOperator */
    KROSSTAVEL_KIND_EXPR_RANGE = 194, /* ExprRange */
    KROSSTAVEL_KIND_EXPR_RANGE_FROM = 195, /* ExprRangeFrom */
    KROSSTAVEL_KIND_EXPR_RANGE_FULL = 196, /* ExprRangeFull */
    KROSSTAVEL_KIND_EXPR_RANGE_INCLUSIVE = 197, /* ExprRangeInclusive */
    KROSSTAVEL_KIND_EXPR_RANGE_TO = 198, /* ExprRangeTo */
    KROSSTAVEL_KIND_EXPR_RANGE_TO_INCLUSIVE = 199, /* ExprRangeToInclusive */
    KROSSTAVEL_KIND_EXPR_RETURN = 200, /* ExprReturn */
    KROSSTAVEL_KIND_EXPR_SELECT = 201, /* ExprSelect */
    KROSSTAVEL_KIND_EXPR_SELECT_ARM = 202, /* ExprSelectArm */
    KROSSTAVEL_KIND_EXPR_TRY = 203, /* ExprTry */
    KROSSTAVEL_KIND_EXPR_TUPLE = 204, /* ExprTuple */
    KROSSTAVEL_KIND_EXPR_UNARY = 205, /* ExprUnary */
    KROSSTAVEL_KIND_EXPR_WHILE = 206, /* ExprWhile */
    KROSSTAVEL_KIND_EXPR_YIELD = 207 /* ExprYield */
};

#ifdef __cplusplus
}
#endif

#endif
