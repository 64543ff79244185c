/* Cakirotu's library for C: lists blocks of a record as pseudocode, says whether such a listing may be followed, writes and reads listings as
 * rows for a spreadsheet, gives a string back from its literal in a listing, makes a listing's command table for a keyer, puts a record's
 * instructions by columns for a store, and makes all small routines for tests. docs/BINDINGS.md says how to build and link.
 *
 * No function allocates, keeps a pointer, or holds state between calls; threads may call at once. Any bytes may be lent as
 * a record, as rows or as a literal, and any lists as a listing: every call ends with what is asked for or with a number. Nothing is read or stored
 * past the lengths given.
 *
 * Give a thread that calls them 256 KiB of stack or more.
 *
 * What a caller owes: each pointer is aligned for its type and stands for as many entries as its length says; the lists that a call
 * writes overlap neither each other nor what it reads. A list of length 0 may be NULL. */
#ifndef CAKIROTU_H
#define CAKIROTU_H

#include <stddef.h>
#include <stdint.h>

#ifdef __cplusplus
extern "C" {
#endif

/* What a call answers: 0, or the number of the first question that got a no. */
enum cakirotu_answer {
    CAKIROTU_LISTED = 0,
    CAKIROTU_NO_HEADER = 1,        /* at least 24 bytes? */
    CAKIROTU_NO_SETTINGS = 2,      /* bits 16, 32 or 64, convention and shift as the record format has them? */
    CAKIROTU_NO_LIMITS = 3,        /* at most 200 blocks, 500 instructions, 600 edges, 200 atlas entries, 32 spans, 4,000 text
                                      bytes, indent 55? */
    CAKIROTU_NO_LENGTH = 4,        /* as long as the header's sizes say? */
    CAKIROTU_NO_COUNTS = 5,        /* do the blocks' counts total the header's, and is each label mark 0 or 1? */
    CAKIROTU_NO_STARTS = 6,        /* do all blocks start at different addresses? */
    CAKIROTU_NO_EDGES = 7,         /* is each edge of kind 0 to 4? */
    CAKIROTU_NO_INSTRUCTIONS = 8,  /* is every field of each instruction, and the frame register, one that can be recorded? */
    CAKIROTU_NO_ATLAS = 9,         /* do atlas addresses rise, do lengths total the header's, are texts as they may be? */
    CAKIROTU_NO_SPANS = 10,        /* is each span's first address at most its last? */
    CAKIROTU_NO_RANGE = 11,        /* from <= to <= the record's blocks? */
    CAKIROTU_NO_TEXT_ROOM = 12,    /* is the list for text, for bytes, or for a record, long enough? */
    CAKIROTU_NO_TOKEN_ROOM = 13,   /* are ends and kinds, or a table's rows? */
    CAKIROTU_NO_LINE_ROOM = 14,    /* are addresses, marks, places and lines, or a table's addresses? */
    CAKIROTU_NO_BRANCHES = 15,     /* asked between 8 and 9: has each block that ends in a conditional near branch one True edge,
                                      to the branch's target, and any other block none? */
    CAKIROTU_NO_ROWS = 16,         /* of rows alone, asked before 12: are the bytes rows, do the lists hold lines that rows can carry? */
    CAKIROTU_NO_LITERAL = 17,      /* of a literal alone, asked before 12: is the token of kind 5, with a text that a listing has for a
                                      string? */
    CAKIROTU_NO_ROUTINE = 18,      /* of a small routine alone, asked before 12: is its number below 276? */
    CAKIROTU_NO_NAMES = 19         /* of a command table alone, asked before 16: is neither name empty? */
};

/* Where the three sizes stand. */
enum cakirotu_size_place { CAKIROTU_TEXT_BYTES, CAKIROTU_TOKENS, CAKIROTU_LINES, CAKIROTU_SIZES };

/* Where cakirotu_list and cakirotu_size store the looks, behind the sizes, and how many entries they store in all. Rows and tables have none. */
enum cakirotu_looks_place { CAKIROTU_LOOKS = CAKIROTU_SIZES, CAKIROTU_SIZES_AND_LOOKS };

/* What a token is. */
enum cakirotu_kind {
    CAKIROTU_TEXT,
    CAKIROTU_REGISTER,
    CAKIROTU_NUMBER,
    CAKIROTU_KEYWORD,
    CAKIROTU_SYMBOL,  /* a name, a label, or an address with its prefix */
    CAKIROTU_ADDRESS, /* a string's literal */
    CAKIROTU_PUNCT,
    CAKIROTU_PREFIX
};

/* A line's mark: the indent in the low byte, plus 256 if the line has an address. */
#define CAKIROTU_INDENT 0x00ff
#define CAKIROTU_ADDRESSED 0x0100

/* Lists the blocks from `from` up to but without `to`. With 0 the lists hold the listing and their entries past the sizes are as
 * they were; with a number every list is as it was, and the sizes and the looks are 0.
 *
 * rec        the record's bytes
 * from, to   places of blocks in the record's order; 0 and the number of blocks for the whole of it
 * text       the tokens' text, one after another, without addresses, indents or line ends
 * ends       for each token the place in `text` behind it; it begins where the one before ends
 * kinds      for each token an enum cakirotu_kind
 * addresses  for each line its address, 0 if it has none
 * marks      for each line its mark
 * places     for each line the place of its block in the record: for a label, an instruction or an opening line the block it was written
 *            for, for a lone closing brace the block whose branch opened it, for a while-line the loop's last block
 * lines      for each line the number of tokens up to its end; it begins where the line before ends
 * sizes      gets text bytes, tokens, lines, looks; a list shorter than 4 gets the first ones
 *
 * Looks are the edges that were read to find loops, if-regions and labels, each as often as it was read: at most 5 for each block of the range
 * and edge of the record. They depend on the record and the range alone, not on the lists. */
uint8_t cakirotu_list(const uint8_t *rec, size_t rec_len, size_t from, size_t to, uint8_t *text, size_t text_len, uint32_t *ends,
                      size_t ends_len, uint8_t *kinds, size_t kinds_len, uint64_t *addresses, size_t addresses_len, uint16_t *marks,
                      size_t marks_len, uint16_t *places, size_t places_len, uint32_t *lines, size_t lines_len, uint64_t *sizes,
                      size_t sizes_len);

/* The sizes and the looks of that listing: lists of just these lengths suffice for cakirotu_list. Answers 0 or a number, none of 12 to 14. */
uint8_t cakirotu_size(const uint8_t *rec, size_t rec_len, size_t from, size_t to, uint64_t *sizes, size_t sizes_len);

/* What must hold of a record so that following its listing leads where the processor goes (docs/READING.md, "Following a listing"), by the number that
 * tells that it does not. A reader that takes the kinds of tokens into account may do without 5, 7 and 8. */
enum cakirotu_assumption {
    CAKIROTU_FOLLOWS = 0,          /* all of it holds */
    CAKIROTU_BREAKS_BLOCKS = 1,    /* there is at least one block */
    CAKIROTU_BREAKS_TURNS = 2,     /* jumps, conditional branches and returns stand only last in a block */
    CAKIROTU_BREAKS_MARKS = 3,     /* no last instruction is skip-marked */
    CAKIROTU_BREAKS_SETS = 4,      /* no setcc or cmovcc has a near branch, as first operand */
    CAKIROTU_BREAKS_CASES = 5,     /* no edge is Case */
    CAKIROTU_BREAKS_STARTS = 6,    /* no atlas entry has a block's start as its address */
    CAKIROTU_BREAKS_NAMES = 7,     /* no atlas or mnemonic 0 name begins with loc_ */
    CAKIROTU_BREAKS_WORDS = 8,     /* no mnemonic 0 name is do, if, goto or return */
    CAKIROTU_BREAKS_JUMPS = 9,     /* a direct jump to a block of the record has its one Uncond edge to that block */
    CAKIROTU_BREAKS_FALLS = 10,    /* a block that does not end in a jmp or return has the next block as its one Fall or False edge */
    CAKIROTU_BREAKS_BRANCHES = 11, /* every conditional branch goes to a block of the record */
    CAKIROTU_BREAKS_LABELS = 12    /* every goto to a block names a label that stands in the listing */
};

/* Whether the listing of a whole record may be followed: with 0 `broken` gets CAKIROTU_FOLLOWS or the first assumption that does not hold. Answers 0
 * or the number of a question before 12, and then `broken` gets 0: look at the answer first.
 *
 * rec     the record's bytes
 * broken  gets an enum cakirotu_assumption in its first entry; entries behind it, and a list without entries, are as they were */
uint8_t cakirotu_check(const uint8_t *rec, size_t rec_len, uint64_t *broken, size_t broken_len);

/* The most bytes that rows of a listing of these sizes have.
 * A line has at most 16 digits of address, 3 of indent and 5 of place, two commas, CR and LF; a token two commas, a letter and two
 * quotes beside its text, in which every byte may be a quote. */
#define CAKIROTU_ROWS_BYTES(text, tokens, lines) (2 * (uint64_t)(text) + 5 * (uint64_t)(tokens) + 28 * (uint64_t)(lines))

/* Writes a listing as rows: comma-separated values after RFC 4180, for a spreadsheet. A line is a row: its address as sixteen upper
 * hexadecimal digits or nothing, its indent, its place, then for each token a letter (X R N K S A P F for kinds 0 to 7) and its text in
 * double quotes, a quote doubled; CR LF ends it. No lines are an empty file.
 *
 * With 0 `out` holds the rows and its bytes past them are as they were; with a number it is as it was and the size is 0.
 * Answers 0, CAKIROTU_NO_ROWS or CAKIROTU_NO_TEXT_ROOM.
 *
 * text to lines  a listing's lists, as cakirotu_list fills them; entries past the sizes are not looked at
 * sizes          text bytes, tokens, lines; those that a list shorter than 3 lacks count as 0, and entries behind them are not looked at
 * out            gets the rows; CAKIROTU_ROWS_BYTES of them always suffice
 * size           gets how many bytes that are, in its first entry
 *
 * CAKIROTU_NO_ROWS: a size is above a list's length; ends do not rise from token to token up to the text's size, or lines not from line to
 * line up to the number of tokens; a kind is above 7, a mark above 511, an indent 255; a line without address has one in the list. */
uint8_t cakirotu_write_rows(const uint8_t *text, size_t text_len, const uint32_t *ends, size_t ends_len, const uint8_t *kinds,
                            size_t kinds_len, const uint64_t *addresses, size_t addresses_len, const uint16_t *marks, size_t marks_len,
                            const uint16_t *places, size_t places_len, const uint32_t *lines, size_t lines_len, const uint64_t *sizes,
                            size_t sizes_len, uint8_t *out, size_t out_len, uint64_t *size, size_t size_len);

/* Reads rows back into a listing's lists: just those bytes are accepted that cakirotu_write_rows can write. With 0 the lists hold the
 * listing and their entries past the sizes are as they were; with a number every list is as it was and the sizes are 0.
 * Answers 0, CAKIROTU_NO_ROWS, or CAKIROTU_NO_TEXT_ROOM, _TOKEN_ROOM or _LINE_ROOM.
 *
 * file           the rows; `file_len` bytes of text, a sixth as many tokens and a twelfth as many lines always suffice
 * text to lines  get the listing, as cakirotu_list fills them
 * sizes          gets text bytes, tokens, lines; a list shorter than 3 gets the first ones, and entries behind them are as they were */
uint8_t cakirotu_read_rows(const uint8_t *file, size_t file_len, uint8_t *text, size_t text_len, uint32_t *ends, size_t ends_len,
                           uint8_t *kinds, size_t kinds_len, uint64_t *addresses, size_t addresses_len, uint16_t *marks, size_t marks_len,
                           uint16_t *places, size_t places_len, uint32_t *lines, size_t lines_len, uint64_t *sizes, size_t sizes_len);

/* Where the three values of a string stand. */
enum cakirotu_value_place { CAKIROTU_STRING_BYTES, CAKIROTU_WIDE, CAKIROTU_CUT, CAKIROTU_VALUES };

/* The most bytes that a literal gives. */
#define CAKIROTU_LITERAL_BYTES 80

/* Gives a string back from its literal, the text of a token of kind CAKIROTU_ADDRESS: just those texts are accepted that a listing has for a
 * string. One of at most 80 characters comes back as it was; the literal of a longer one ends in the bytes E2 80 A6 before the last quote,
 * and its first 80 characters come back.
 *
 * With 0 `out` holds the string and its bytes past it are as they were; with a number it is as it was and the values are 0.
 * Answers 0, CAKIROTU_NO_LITERAL or CAKIROTU_NO_TEXT_ROOM.
 *
 * kind, text  the token
 * out         gets the string, a byte for each character, of a wide string too; CAKIROTU_LITERAL_BYTES of them always suffice
 * values      gets how many bytes that are, 1 or 0 for a wide string or not, 1 or 0 for one that was cut or not; a list shorter than 3 gets the
 *             first ones */
uint8_t cakirotu_read_literal(uint8_t kind, const uint8_t *text, size_t text_len, uint8_t *out, size_t out_len, uint64_t *values,
                              size_t values_len);

/* Where the two counts of a command table stand. */
enum cakirotu_count_place { CAKIROTU_TABLE_BYTES, CAKIROTU_TABLE_ROWS, CAKIROTU_COUNTS };

/* Of a row: the place behind its bytes, which begin where those of the row before end; and 1 if none were found, else 0. */
#define CAKIROTU_ROW_END(row) ((uint64_t)(row) / 2)
#define CAKIROTU_ROW_NONE(row) ((uint64_t)(row) % 2)

/* Makes a listing's command table: a row for each call line by a name, in the listing's order, with the call's address and the bytes that a
 * register was set to. These are the string of a literal: of the last line of the same block before the call, and after the block's previous
 * call line, that begins with that register, if it goes on with ` = ` and a literal that is not cut. A call line has an address and begins with a
 * register, ` = `, one token and punctuation that begins with `(`. docs/KEYER.md says what a table does not tell.
 *
 * With 0 the three lists hold the table and their entries past the counts are as they were; with a number they are as they were and the counts
 * are 0. Answers 0, CAKIROTU_NO_NAMES, CAKIROTU_NO_ROWS, or CAKIROTU_NO_TEXT_ROOM for bytes, _TOKEN_ROOM for rows, _LINE_ROOM for calls.
 *
 * text to lines  a listing's lists, as cakirotu_list fills them; entries past the sizes are not looked at
 * sizes          text bytes, tokens, lines; those that a list shorter than 3 lacks count as 0, and entries behind them are not looked at
 * call           the name of the call, as the listing has it
 * reg            the name of the register, as the listing has it
 * bytes          gets the rows' bytes, one after another; CAKIROTU_LITERAL_BYTES for each line always suffice
 * rows           gets for each row twice the place behind its bytes, plus 1 if none were found; one for each line always suffices
 * calls          gets for each row the call's address; as many as rows
 * counts         gets how many bytes and rows there are; a list shorter than 2 gets the first one */
uint8_t cakirotu_command_table(const uint8_t *text, size_t text_len, const uint32_t *ends, size_t ends_len, const uint8_t *kinds,
                               size_t kinds_len, const uint64_t *addresses, size_t addresses_len, const uint16_t *marks, size_t marks_len,
                               const uint16_t *places, size_t places_len, const uint32_t *lines, size_t lines_len, const uint64_t *sizes,
                               size_t sizes_len, const uint8_t *call, size_t call_len, const uint8_t *reg, size_t reg_len, uint8_t *bytes,
                               size_t bytes_len, uint64_t *rows, size_t rows_len, uint64_t *calls, size_t calls_len, uint64_t *counts,
                               size_t counts_len);

/* The most bytes that a record has. */
#define CAKIROTU_RECORD_BYTES 64336

/* Puts a record's instruction bodies by columns, so that like bytes stand together for a store that compresses: byte 0 of every body, then byte 1 of
 * every body, up to byte 91. All else is where it was, and the length is the same.
 *
 * Only the first four questions are asked, then whether `out` is long enough: a record that cakirotu_list refuses with 5 or more is stored too.
 * With 0 `out` holds the record by columns and its bytes past it are as they were; with a number it is as it was and the size is 0.
 * Answers 0, CAKIROTU_NO_HEADER, _SETTINGS, _LIMITS or _LENGTH, or CAKIROTU_NO_TEXT_ROOM.
 *
 * rec   the record's bytes
 * out   gets the record by columns; as many bytes as the record has suffice, and so do CAKIROTU_RECORD_BYTES
 * size  gets how many bytes that are, in its first entry; a list without entries is as it was */
uint8_t cakirotu_to_columns(const uint8_t *rec, size_t rec_len, uint8_t *out, size_t out_len, uint64_t *size, size_t size_len);

/* The way back: what cakirotu_to_columns stored comes back byte for byte. The same questions are asked and the same holds of `out` and `size`. Nothing
 * in the bytes tells which of both orders they are in: a caller who asks for the way back of a record that is not by columns gets other bytes, from
 * which cakirotu_to_columns gives the record again.
 *
 * rec   a record by columns
 * out   gets the record */
uint8_t cakirotu_from_columns(const uint8_t *rec, size_t rec_len, uint8_t *out, size_t out_len, uint64_t *size, size_t size_len);

/* How many small routines there are, and the most bytes that the record of one has. */
#define CAKIROTU_ROUTINES 276
#define CAKIROTU_ROUTINE_BYTES 405

/* Makes small routine k as a record that every question accepts: each routine of one, two or three blocks of a single instruction stands under one
 * number, fewer blocks first. docs/ROUTINES.md says which has which number.
 *
 * With 0 `out` holds the record and its bytes past it are as they were; with a number it is as it was and the size is 0.
 * Answers 0, CAKIROTU_NO_ROUTINE or CAKIROTU_NO_TEXT_ROOM.
 *
 * k     the routine's number, below CAKIROTU_ROUTINES
 * out   gets the record; CAKIROTU_ROUTINE_BYTES always suffice
 * size  gets how many bytes that are, in its first entry; a list without entries is as it was */
uint8_t cakirotu_routine(size_t k, uint8_t *out, size_t out_len, uint64_t *size, size_t size_len);

#ifdef __cplusplus
}
#endif

#endif
