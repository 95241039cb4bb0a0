/*
 * delta_null.h: reading Delta Null placement scripts from C.
 *
 * dn_read takes a script and writes its tree file to a buffer of yours: the tree, and every error and loss
 * that was found in the script.
 *
 *     static uint8_t file[DN_FILE_BUFFER_BYTES];
 *     size_t bytes;
 *     uint32_t number = dn_read(script, script_len, file, sizeof file, &bytes);
 *
 * dn_load takes a tree file, just written or stored before, and tests it. It writes a step for each node and
 * each error to a buffer of words: its tag, how many children it has, and where its body is in the file.
 *
 *     static uint32_t steps[DN_STEP_BUFFER_WORDS];
 *     size_t count;
 *     number = dn_load(file, bytes, steps, DN_STEP_BUFFER_WORDS, &count);
 *
 * dn_sentence takes the script again and writes what one of its errors says in words, here the first of
 * the full list.
 *
 *     static uint8_t sentence[DN_SENTENCE_BUFFER_BYTES];
 *     number = dn_sentence(script, script_len, DN_TAG_FULL_ERROR, 0, sentence, sizeof sentence, &bytes);
 *
 * Compile and link with `pkg-config --cflags --libs delta_null`.
 *
 * DN_OK says that the script was read, or the file loaded, not that the script is good. Look at the errors,
 * which come after DN_TAG_MODULE: the part of the script that an error is about may be missing from the tree.
 * DN_TAG_TOKEN_ERROR fields are all errors of the tokenizer, DN_TAG_FULL_ERROR fields all losses and all
 * errors of the parser. That there is no DN_TAG_REPORTED_ERROR field proves nothing: losses, and errors in
 * the arguments of a call and in the fields of a struct type, are not reported.
 *
 * A dash before a digit belongs to the number: in centre(width -12) the argument is width, -12 is lost,
 * and the error is in the full list alone: unexpected token Integer("-12", 10) in list. Write width - 12.
 *
 * A minus consumes the character after it, so that a - b is read as it looks, and a -bc as a - c. If it is
 * not white space, that is a loss: DN_PARSE_ERROR_CHARACTER_LOST, in the full list alone. Assembly with no
 * closing brace runs to the end of the script: asm { fn f(w: T) is read as assembly alone, and there is no
 * function f. That is the other loss, DN_PARSE_ERROR_ASSEMBLY_NOT_CLOSED.
 *
 * A script is clean if it is read and its file has no DN_TAG_FULL_ERROR field. Then each of its characters is
 * in a token, white space, a comment or something that a DN_TAG_TOKEN_ERROR field is about; and two clean
 * scripts with the same tree have the same tokens, but for what docs/FORMAT.md lists, such as parentheses.
 *
 * In the repository, docs/FORMAT.md defines the language, the tree file and each answer, and examples/tree.c
 * prints the tree of a script or of a stored file, with the errors of a script in words.
 *
 * Names: DN_REFUSED_ what the calls return, DN_MAX_ limits, DN_STEP_ words of a step, DN_TAG_ fields of the
 * file, DN_OP_ operators, DN_ALIAS_ words before a type alias, DN_TOKEN_ERROR_ and DN_PARSE_ERROR_ numbers of
 * errors, DN_KIND_ kinds of tokens. tools/header compares each number with the definition.
 */
#ifndef DELTA_NULL_H
#define DELTA_NULL_H

#if !defined(__x86_64__) || defined(__ILP32__) || defined(_WIN32)
#error "delta_null.h: libdelta_null.a is for x86-64 Linux with 64-bit pointers; this compiler builds for another platform"
#endif

#include <stddef.h>
#include <stdint.h>

#ifdef __cplusplus
extern "C" {
#endif

/* ---- the version ---- */

/*
 * Of this header and the library that is installed with it. MAJOR rises where a program that was right
 * can be wrong with the new version: a name, a number, a call or the format of the file changed or is
 * gone. MINOR rises where something is new: a call, a limit, a refusal, a tag, an error; and while MAJOR
 * is 0 it rises for both. PATCH rises where neither did.
 */
#define DN_VERSION_MAJOR 0
#define DN_VERSION_MINOR 5
#define DN_VERSION_PATCH 0
#define DN_VERSION_STRING "0.5.0"

/* ---- limits ---- */

#define DN_MAX_SCRIPT_BYTES 16384 /* bytes of a script */
#define DN_MAX_TOKENS 2048        /* tokens of a script */
#define DN_MAX_TOKEN_ERRORS 255   /* token errors of a script */
#define DN_MAX_ERRORS 255         /* entries of the full list: losses and errors of the parser */
#define DN_MAX_NESTING 96         /* open calls of the parser for statements, expressions, prefixed
                                     operands and types */
#define DN_MAX_STEPS 21845        /* steps of a tree file */

/* The least length of a file buffer. The tree file of each script that is read fits into it. A longer
 * file is no tree file. */
#define DN_FILE_BUFFER_BYTES 65536

/* The least length of a buffer for steps, in words. The steps of each file that is loaded fit into it. */
#define DN_STEP_BUFFER_WORDS 87380

/* The bytes of the longest sentence. A sentence buffer may be shorter; this one is never too short. */
#define DN_SENTENCE_BUFFER_BYTES 98333

/* ---- what the calls return ---- */

/*
 * Take a number that is not listed here for a refusal too: a later version may have more of them. What is
 * said of the file buffer is about dn_read; dn_sentence changes nothing in its buffer if it refuses.
 * dn_load returns 0, 3, 14 or 15.
 */
enum dn_number {
    DN_OK = 0, /* the script was read: there is a tree file, or a sentence; or a tree file was loaded */

    /* refused before any work: the file buffer is not changed; tested in this order */
    DN_REFUSED_SCRIPT_LENGTH = 1, /* the script has more than DN_MAX_SCRIPT_BYTES bytes */
    DN_REFUSED_NOT_UTF8 = 2,      /* the script is not UTF-8 (RFC 3629) */
    DN_REFUSED_BUFFER_LENGTH = 3, /* the file buffer has fewer than DN_FILE_BUFFER_BYTES bytes;
                                     dn_sentence has none and never returns this. Of dn_load: the
                                     buffer for steps has fewer than DN_STEP_BUFFER_WORDS words */

    /* refused by the tokenizer, which stops at the first: the file buffer is all zeros */
    DN_REFUSED_FOREIGN_CHARACTER = 4,     /* a character above 255, and not in a string, a comment or
                                             assembly or after a minus */
    DN_REFUSED_MINUS_AT_END = 5,          /* the script ends with a dash that is a minus */
    DN_REFUSED_TOO_MANY_TOKENS = 6,       /* more than DN_MAX_TOKENS */
    DN_REFUSED_TOO_MANY_TOKEN_ERRORS = 7, /* more than DN_MAX_TOKEN_ERRORS */

    /* for token records that a caller passes; no call takes them, and none returns this */
    DN_REFUSED_BAD_RECORD = 8,

    /* refused by the parser, which stops at the first: the file buffer is all zeros */
    DN_REFUSED_NO_TOKENS = 9,        /* the script has no token */
    DN_REFUSED_NESTED_TOO_DEEP = 10, /* more than DN_MAX_NESTING calls are open */
    DN_REFUSED_END_AFTER_WORD = 11,  /* the script ends right after `type`, `use` or the dot of `.name` */
    DN_REFUSED_TOO_MANY_ERRORS = 12, /* more than DN_MAX_ERRORS; by losses alone, it comes before 10 and 11 */

    /* refused by dn_sentence alone, of a script that is read */
    DN_REFUSED_SENTENCE_LENGTH = 13, /* the sentence buffer is shorter than the sentence */

    /* refused by dn_load alone, which stops at the first: its buffer is all zeros */
    DN_REFUSED_BAD_FIELD = 14, /* the file has more than DN_FILE_BUFFER_BYTES bytes, or a field is cut
                                  short, or it has a tag or a body that no field has */
    DN_REFUSED_BAD_TREE = 15   /* the fields are not one tree, then its errors */
};

/* ---- the calls ---- */

/*
 * Reads script[0 .. script_len - 1] and writes its tree file to file[0 .. file_len - 1].
 *
 * Numbers. Returns DN_OK or a refusal of enum dn_number. *bytes is set by every call: to the length of the
 * tree file, or to 0 if the script is refused.
 *
 * Buffers. All three are the caller's, before, during and after the call; the library keeps no pointer
 * and allocates no memory. No pointer may be NULL, even if its length is 0. The script, the file buffer
 * and *bytes must not overlap.
 *     script  is only read; it may have any bytes, zeros too, and any length.
 *     file    is written; what it held before does not matter. If the script is read, the bytes after the
 *             tree file are set to 0, to the buffer's end. Shorter than DN_FILE_BUFFER_BYTES, it is
 *             not changed, and the script is refused.
 * No byte outside of them is read or written.
 *
 * Threads. No state is kept between calls: threads may call at the same time, each with a file buffer
 * and *bytes of its own. They may share a script that none of them changes.
 *
 * Stack. Give each thread that calls a stack of 1 MiB. No theorem bounds the stack; the most that was
 * measured is below 400 KiB (bench/README.md).
 */
uint32_t dn_read(const uint8_t *script, size_t script_len,
                 uint8_t *file, size_t file_len, size_t *bytes);

/*
 * Writes the sentence of one error of script[0 .. script_len - 1] to sentence[0 .. sentence_len - 1]: what
 * the error says in words, without its place. It is the message of the Rust front end, where a token has the
 * name of its kind, with its text and base: unexpected token Integer("-12", 10) in list. Losses, for which the
 * Rust has no message, have: character lost after minus; assembly not closed.
 *
 *     list      is the tag of the error's field: DN_TAG_TOKEN_ERROR, DN_TAG_REPORTED_ERROR or
 *               DN_TAG_FULL_ERROR.
 *     position  is the number of the fields of that tag before it in the tree file of the script, so 0 for
 *               the first.
 *
 * Each call reads the script anew; no tree file is needed.
 *
 * Numbers, tested in this order. *bytes is set by every call: to the length of the sentence, or to 0 if
 * there is a refusal.
 *     1. A script that dn_read refuses, with a buffer that is long enough for it, keeps its refusal.
 *     2. Any other list, or a position with no error: DN_OK and the empty sentence, so *bytes is 0.
 *     3. A buffer that is shorter than the sentence: DN_REFUSED_SENTENCE_LENGTH.
 *     4. DN_OK and the sentence.
 *
 * Buffers. All three are the caller's, as with dn_read. No pointer may be NULL, even if its length is 0.
 * The script, the sentence buffer and *bytes must not overlap.
 *     script    is only read; it may have any bytes, zeros too, and any length.
 *     sentence  is written with DN_OK, and not changed with a refusal; what it held before does not matter.
 *               The sentence has no terminating zero, but the bytes after it are set to 0, to the
 *               buffer's end: give the buffer one byte more to have at least one. It may have any length.
 * No byte outside of them is read or written.
 *
 * Text. A sentence is ASCII and one line: in quoted text controls, quotes, backslashes and all characters
 * above 127 are escaped (docs/FORMAT.md, Sentences). Only the character that DN_TOKEN_ERROR_UNKNOWN_CHARACTER
 * names stands as it is, in one byte or two; it may be a control character, zero too.
 *
 * Threads. As with dn_read: each with a sentence buffer and *bytes of its own.
 *
 * Stack. Give each thread that calls a stack of 1 MiB. No theorem bounds the stack; the most that was
 * measured is below 400 KiB (bench/README.md).
 */
uint32_t dn_sentence(const uint8_t *script, size_t script_len, uint32_t list, size_t position,
                     uint8_t *sentence, size_t sentence_len, size_t *bytes);

/*
 * Loads the tree file file[0 .. file_len - 1], which dn_read wrote or which was stored: tests it, and writes
 * its steps to records[0 .. records_len - 1] (see the steps of a file, below).
 *
 * Give it exactly the file: file_len is what dn_read set *bytes to, or the length of what was stored. The
 * zeros that follow it in the buffer are no fields: DN_REFUSED_BAD_FIELD.
 *
 * What DN_OK says. The fields are the records of one tree, with DN_TAG_MODULE as the last, then errors, in
 * the order of DN_TAG_TOKEN_ERROR, DN_TAG_REPORTED_ERROR, DN_TAG_FULL_ERROR. Each body lies in the file and
 * has the length, the numbers and the text that enum dn_tag says, so a program need not test them again.
 * Lines and columns are 1 to 16384, or both 0 in the two lists of the parser; counts are at most 2048; text is
 * UTF-8. Each record has the children that enum dn_tag says, but any statement may be a function's body, and
 * DN_TAG_VOID may stand wherever a type may. Losses are in DN_TAG_FULL_ERROR alone. Each file that dn_read
 * writes is accepted.
 *
 * Not tested: whether there is a script with this tree, how many records or errors there are, whether the
 * text of a DN_TAG_INTEGER is digits, whether a reported error is in the full list, whether losses come first
 * there.
 *
 * Skipped fields. A field with a tag from 0x70 on has no step. It may stand anywhere, after DN_TAG_MODULE
 * too, and have any body. Its bytes count for the length of the file, and cut short it is
 * DN_REFUSED_BAD_FIELD. So a program loads the files of a later version, without what that added in such
 * fields. To see whether there are any, compare the length of the file with the sum of DN_FIELD_HEAD_BYTES
 * and the length of the body over all steps; to read them, walk over the fields. What is not skipped has to
 * be known here: an error number that this version does not list is DN_REFUSED_BAD_FIELD.
 *
 * Numbers, tested in this order. *count is set by every call: to the number of steps, which is at most
 * DN_MAX_STEPS, or to 0 if there is a refusal.
 *     1. A buffer of fewer than DN_STEP_BUFFER_WORDS words: DN_REFUSED_BUFFER_LENGTH.
 *     2. A file of more than DN_FILE_BUFFER_BYTES bytes: DN_REFUSED_BAD_FIELD.
 *     3. The fields, one after the other, up to the first with a fault: DN_REFUSED_BAD_FIELD if it has one by
 *        itself, else DN_REFUSED_BAD_TREE.
 *     4. No DN_TAG_MODULE, so also an empty file: DN_REFUSED_BAD_TREE.
 *     5. DN_OK and the steps.
 *
 * Buffers. All three are the caller's, as with dn_read. No pointer may be NULL, even if its length is 0.
 * The file, the buffer for steps and *count must not overlap.
 *     file     is only read; it may have any bytes, and any length. Keep it as long as the steps: they say
 *              where in it the bodies are.
 *     records  is written; what it held before does not matter. records_len counts words, not bytes. With
 *              DN_OK the words after the steps are set to 0, to the buffer's end; with DN_REFUSED_BAD_FIELD
 *              or DN_REFUSED_BAD_TREE all words are. Shorter than DN_STEP_BUFFER_WORDS, it is not changed.
 * No byte outside of them is read or written.
 *
 * Threads. As with dn_read: each with a buffer for steps and *count of its own. They may share a file that
 * none of them changes.
 *
 * Stack. Give each thread that calls a stack of 1 MiB, as with dn_read. No theorem bounds the stack.
 */
uint32_t dn_load(const uint8_t *file, size_t file_len, uint32_t *records, size_t records_len, size_t *count);

/* ---- the steps of a file ---- */

/*
 * dn_load writes DN_STEP_WORDS words for each record and each error, in the order of the file. Those of step
 * i, from 0, begin at records[i * DN_STEP_WORDS].
 *
 * The children of a step come before it, each with its own children before it. So the last child of step i
 * is step i - 1; and if step k is a child, and n steps are below it, the child before it is step k - n - 1.
 * Or keep a stack: each record pops its children and is pushed. DN_TAG_MODULE is the root, and the steps
 * after it are errors.
 */
#define DN_STEP_WORDS 4

enum dn_step {
    DN_STEP_TAG = 0,      /* enum dn_tag */
    DN_STEP_CHILDREN = 1, /* how many children it has; an error has none */
    DN_STEP_OFFSET = 2,   /* where its body begins, from the start of the file */
    DN_STEP_LENGTH = 3    /* how many bytes its body has */
};

/* ---- the tree file ---- */

/*
 * A file is fields, one after the other. A field is a tag (1 byte), the length of its body
 * (2 bytes) and the body. All numbers have their high byte first.
 *
 *     records of the tree | DN_TAG_MODULE | DN_TAG_TOKEN_ERROR .. | DN_TAG_REPORTED_ERROR ..
 *                         | DN_TAG_FULL_ERROR ..
 *
 * Tags from 0x70 on are left for fields that a later version may add: skip one that you do not know, by
 * its length, as dn_load does.
 *
 * The children of a record come before it, in the order in which they were read, each with its own
 * children before it: a program that builds the tree keeps a stack and, for each record, pops its
 * children and pushes the record. After DN_TAG_MODULE the stack holds the module alone. dn_load says how many
 * children each record has.
 *
 * A body is a place (line and column, 2 bytes each), then numbers, then text to the body's end.
 * Lines and columns count from 1, columns in characters. Tags marked "no place" have no
 * place. Below, u8, u16 and u64 are numbers of 1, 2 and 8 bytes; the children follow the colon. Text
 * is UTF-8 and is not terminated by a zero; a name, too, may have letters of two bytes, up to the character 255.
 *
 * In DN_TAG_NAMED_TYPE, DN_TAG_VARIABLE_DECLARATION and DN_TAG_TOP_LEVEL_VARIABLE the name is "<?>" if
 * another token was in place of the identifier; there is a DN_PARSE_ERROR_IDENTIFIER then.
 */
#define DN_FIELD_HEAD_BYTES 3 /* the tag and the length */
#define DN_PLACE_BYTES 4
#define DN_ERROR_BODY_BYTES 7 /* DN_TAG_TOKEN_ERROR, DN_TAG_REPORTED_ERROR, DN_TAG_FULL_ERROR */

enum dn_tag {
    /* types */
    DN_TAG_NAME = 0x10,       /* text the name */
    DN_TAG_VOID = 0x11,       /* no return type was written; the function's place */
    DN_TAG_POINTER = 0x12,    /* : type */
    DN_TAG_ARRAY = 0x13,      /* u64 size : type of an element */
    DN_TAG_STRUCT = 0x14,     /* u16 count : as many DN_TAG_NAMED_TYPE */
    DN_TAG_NAMED_TYPE = 0x15, /* no place; text the name of a parameter or a struct's field : type */

    /* expressions */
    DN_TAG_IDENTIFIER = 0x20,          /* text */
    DN_TAG_INTEGER = 0x21,             /* u8 base (2, 10 or 16), text the digits, in base 10 perhaps
                                          a dash first */
    DN_TAG_BOOLEAN = 0x22,             /* u8 0 or 1 */
    DN_TAG_STRING = 0x23,              /* text, its escapes replaced */
    DN_TAG_CALL = 0x24,                /* u16 count : what is called, then as many arguments */
    DN_TAG_INDEX = 0x25,               /* : what is indexed, index */
    DN_TAG_CAST = 0x26,                /* : expression, type */
    DN_TAG_POINTER_TAKE = 0x27,        /* : expression; prefix & */
    DN_TAG_POINTER_DEREFERENCE = 0x28, /* : expression; prefix * or suffix .* */
    DN_TAG_FIELD_ACCESS = 0x29,        /* text the field's name : expression */
    DN_TAG_BITWISE_NOT = 0x2A,         /* : expression; prefix ~ */
    DN_TAG_BOOLEAN_NOT = 0x2B,         /* : expression; prefix ! */
    DN_TAG_BOOLEAN_AND = 0x2C,         /* : left, right; && */
    DN_TAG_ARITHMETIC_BIN_OP = 0x2D,   /* u8 enum dn_arithmetic_op : left, right */
    DN_TAG_COMPARISON_BIN_OP = 0x2E,   /* u8 enum dn_comparison_op : left, right */
    DN_TAG_SIZEOF = 0x2F,              /* : type */

    /* compounds, and the initial value of a variable */
    DN_TAG_COMPOUND_ARRAY = 0x30,  /* u16 count : as many expressions */
    DN_TAG_COMPOUND_STRUCT = 0x31, /* u16 count : as many DN_TAG_COMPOUND_FIELD */
    DN_TAG_COMPOUND_FIELD = 0x32,  /* text the field's name : expression */
    DN_TAG_NO_VALUE = 0x33,        /* no place, empty body */
    DN_TAG_ASSIGNED_VALUE = 0x34,  /* no place, empty body : expression */
    DN_TAG_COMPOUND_VALUE = 0x35,  /* no place, empty body : compound */

    /* statements */
    DN_TAG_BLOCK = 0x40,                /* u16 count : as many statements */
    DN_TAG_EXPRESSION = 0x41,           /* : expression */
    DN_TAG_VARIABLE_DECLARATION = 0x42, /* text the name : type, initial value */
    DN_TAG_ASSIGNMENT = 0x43,           /* : target, expression */
    DN_TAG_COMPOUND_ASSIGNMENT = 0x44,  /* : target, compound */
    DN_TAG_RETURN = 0x45,               /* u8 0 or 1 : as many expressions */
    DN_TAG_LOOP = 0x46,                 /* : statement */
    DN_TAG_WHILE = 0x47,                /* : condition, statement */
    DN_TAG_BREAK = 0x48,                /* no children */
    DN_TAG_IF = 0x49,                   /* u8 2 or 3 : as many: condition, statement, statement of else */
    DN_TAG_INLINE_ASSEMBLY = 0x4A,      /* text between the braces */

    /* items of the module */
    DN_TAG_FUNCTION_DEFINITION = 0x50, /* u8 1 for extern, else 0; u16 count; text the name : as many
                                          DN_TAG_NAMED_TYPE, return type, and unless extern a
                                          DN_TAG_BLOCK */
    DN_TAG_TYPE_ALIAS = 0x51,          /* u8 DN_ALIAS_DISTINCT plus DN_ALIAS_INTERNAL, text the name
                                          : type */
    DN_TAG_USE = 0x52,                 /* text the path */
    DN_TAG_TOP_LEVEL_VARIABLE = 0x53,  /* as DN_TAG_VARIABLE_DECLARATION */
    DN_TAG_TOP_LEVEL_ASSEMBLY = 0x54,  /* as DN_TAG_INLINE_ASSEMBLY */

    /* the tree's last field */
    DN_TAG_MODULE = 0x5F, /* no place; u16 count : as many items */

    /* errors, each u8 number, u16 line, u16 column, u8 expected kind, u8 got kind (enum dn_kind) */
    DN_TAG_REPORTED_ERROR = 0x60, /* enum dn_parse_error: what the Rust front end reports, in its order */
    DN_TAG_FULL_ERROR = 0x61,     /* enum dn_parse_error: losses, then all that the parser made, in the
                                     order made */
    DN_TAG_TOKEN_ERROR = 0x62     /* enum dn_token_error: all; both kinds are DN_KIND_NONE */
};

/* bits of the number of DN_TAG_TYPE_ALIAS */
#define DN_ALIAS_DISTINCT 1
#define DN_ALIAS_INTERNAL 2

/* the number of DN_TAG_ARITHMETIC_BIN_OP */
enum dn_arithmetic_op {
    DN_OP_ADD = 0,
    DN_OP_SUBTRACT = 1,
    DN_OP_MULTIPLY = 2,
    DN_OP_BITWISE_AND = 3,
    DN_OP_BITWISE_XOR = 4,
    DN_OP_BITWISE_OR = 5,
    DN_OP_LEFT_SHIFT = 6,
    DN_OP_RIGHT_SHIFT = 7
};

/* the number of DN_TAG_COMPARISON_BIN_OP; from 0 again */
enum dn_comparison_op {
    DN_OP_EQUALS = 0,
    DN_OP_GREATER_THAN = 1,
    DN_OP_GREATER_THAN_OR_EQUALS = 2,
    DN_OP_LESS_THAN = 3,
    DN_OP_LESS_THAN_OR_EQUALS = 4
};

/* ---- errors ---- */

/* the number of DN_TAG_TOKEN_ERROR */
enum dn_token_error {
    DN_TOKEN_ERROR_UNKNOWN_ESCAPE = 1,   /* other than \r, \n, \t; it is left out. At the opening quote */
    DN_TOKEN_ERROR_UNCLOSED_STRING = 2,  /* no closing quote, and no token. At the opening quote */
    DN_TOKEN_ERROR_NO_ASSEMBLY = 3,      /* no { after `asm`, and no token. At `asm` */
    DN_TOKEN_ERROR_UNKNOWN_CHARACTER = 4 /* it is left out */
};

/*
 * The number of DN_TAG_REPORTED_ERROR and DN_TAG_FULL_ERROR; the two losses are in DN_TAG_FULL_ERROR alone,
 * before all others, in the order of the script. Those with "end" are at the end of the script and have the
 * place 0:0. Where "expected" or "got" is not named, that kind is DN_KIND_NONE. dn_sentence has the words for
 * each.
 */
enum dn_parse_error {
    DN_PARSE_ERROR_TOP_LEVEL = 1,            /* no item of a module begins so: got */
    DN_PARSE_ERROR_EXPECTED = 2,             /* another kind of token: expected, got */
    DN_PARSE_ERROR_EXPECTED_AT_END = 3,      /* end: expected */
    DN_PARSE_ERROR_IDENTIFIER = 4,           /* no identifier where one is expected */
    DN_PARSE_ERROR_END_OF_FILE = 5,          /* end, where an identifier is expected */
    DN_PARSE_ERROR_STATEMENT_AT_END = 6,     /* end, where a statement is expected */
    DN_PARSE_ERROR_EXPRESSION = 7,           /* no expression begins so: got */
    DN_PARSE_ERROR_EXPRESSION_AT_END = 8,    /* end, where an expression is expected */
    DN_PARSE_ERROR_ARRAY_SIZE = 9,           /* no integer after the bracket of an array type; at the
                                                bracket */
    DN_PARSE_ERROR_ARRAY_SIZE_POSITIVE = 10, /* a size with a dash, or above 64 bits; at the bracket */
    DN_PARSE_ERROR_TYPE = 11,                /* no type begins so: got */
    DN_PARSE_ERROR_TYPE_AT_END = 12,         /* end, where a type is expected */
    DN_PARSE_ERROR_BODY_AT_END = 13,         /* end, before the } of a block */
    DN_PARSE_ERROR_LIST_AT_END = 14,         /* end, inside a list */
    DN_PARSE_ERROR_IN_LIST = 15,             /* neither a comma nor the list's end after an item: got */
    DN_PARSE_ERROR_NAME_AFTER_TYPE = 16,     /* no identifier after `type` */
    DN_PARSE_ERROR_PATH_AFTER_USE = 17,      /* no string after `use` */
    DN_PARSE_ERROR_COMPOUND_AT_END = 18,     /* end, after # */
    DN_PARSE_ERROR_COMPOUND = 19,            /* no compound begins so: got */

    /* losses */
    DN_PARSE_ERROR_CHARACTER_LOST = 20,     /* a minus consumed a character that is not white space; at the
                                               dash */
    DN_PARSE_ERROR_ASSEMBLY_NOT_CLOSED = 21 /* no closing brace: assembly ran to the end of the script; at
                                               `asm` */
};

/* kinds of tokens; KW_ are words that the language keeps */
enum dn_kind {
    DN_KIND_NONE = 0, /* the error names no kind */
    DN_KIND_IDENTIFIER = 1,
    DN_KIND_INTEGER = 2,
    DN_KIND_STRING = 3,
    DN_KIND_KW_FN = 4,
    DN_KIND_KW_VAR = 5,
    DN_KIND_KW_RETURN = 6,
    DN_KIND_KW_LOOP = 7,
    DN_KIND_KW_WHILE = 8,
    DN_KIND_KW_BREAK = 9,
    DN_KIND_KW_IF = 10,
    DN_KIND_KW_ELSE = 11,
    DN_KIND_KW_TRUE = 12,
    DN_KIND_KW_FALSE = 13,
    DN_KIND_KW_AS = 14,
    DN_KIND_KW_TYPE = 15,
    DN_KIND_KW_STRUCT = 16,
    DN_KIND_KW_SIZEOF = 17,
    DN_KIND_KW_USE = 18,
    DN_KIND_KW_EXTERN = 19,
    DN_KIND_KW_DISTINCT = 20,
    DN_KIND_KW_INTERNAL = 21,
    DN_KIND_PLUS = 22,
    DN_KIND_MINUS = 23,
    DN_KIND_STAR = 24,
    DN_KIND_FORWARD_SLASH = 25,
    DN_KIND_EQUALS = 26,
    DN_KIND_DOUBLE_EQUALS = 27,
    DN_KIND_AMPERSAND = 28,
    DN_KIND_DOUBLE_AMPERSAND = 29,
    DN_KIND_BAR = 30,
    DN_KIND_CARET = 31,
    DN_KIND_TILDE = 32,
    DN_KIND_BANG = 33,
    DN_KIND_DOT = 34,
    DN_KIND_DOT_STAR = 35,
    DN_KIND_LEFT_SHIFT = 36,
    DN_KIND_RIGHT_SHIFT = 37,
    DN_KIND_HASH = 38,
    DN_KIND_L_BRACE = 39,
    DN_KIND_R_BRACE = 40,
    DN_KIND_L_PAREN = 41,
    DN_KIND_R_PAREN = 42,
    DN_KIND_L_BRACKET = 43,
    DN_KIND_R_BRACKET = 44,
    DN_KIND_L_ANGLE = 45,
    DN_KIND_L_ANGLE_EQUALS = 46,
    DN_KIND_R_ANGLE = 47,
    DN_KIND_R_ANGLE_EQUALS = 48,
    DN_KIND_COLON = 49,
    DN_KIND_SEMICOLON = 50,
    DN_KIND_R_ARROW = 51, /* -> */
    DN_KIND_L_ARROW = 52, /* <- */
    DN_KIND_COMMA = 53,
    DN_KIND_INLINE_ASSEMBLY_FRAGMENT = 54
};

#ifdef __cplusplus
}
#endif

#endif
