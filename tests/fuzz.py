#!/usr/bin/env python3
"""Runs the built program on changed copies of the examples, thousands a second: changed documents, files, XPath expressions and words, by
the commands validate, sign, canon and template.

Each process is the program itself, with a shim before the C library that calls its `main` for one input after another: files are
answered and output is caught in memory. An input that ends in a new way, and what is signed in it, is changed further. A run must end
by itself with a status of 0 to 3, give all memory back, need no more than 1 MiB of stack, and:

- a verdict or what was asked for stands on out alone, a refusal is one line on err with nothing on out and no view;
- a document is valid only with views that were signed under its first key, in an example or in the same process, and out tells their lengths;
- no file outside the folder is asked for, and none of a Reference before the signature value is found right;
- what `sign` writes is valid, and signing it again changes nothing; a canonical form of a document or an element is its own
  canonical form; what `template` writes can be read; one input in 16 is run twice, and ends in the same way again.

A process stops at the first input that ends otherwise, crashes or takes a minute; its files are written to a folder for the program
itself. The same seed gives the same inputs. Needs a C compiler. Not part of the gate.

usage: tests/fuzz.py [MINUTES] [SEED] [PROCESSES]
"""
import ctypes
import mmap
import os
import re
import resource
import shlex
import subprocess
import sys
import tempfile
import time

TOP = os.path.dirname(os.path.dirname(os.path.abspath(__file__)))
PROGRAM = os.path.join(TOP, "crates", "xmldsig", "out", "xmldsig")
COMMANDS = ["validate", "sign", "canon", "canon --xpath", "template", "other words"]
SIZES = {"FILES": 8, "FILE_LIMIT": 1 << 14, "WORDS": 20, "WORD_LIMIT": 1 << 10, "EXPRESSION_LIMIT": 160}
STACK = 1 << 20  # octets

DSIG, MORE, ENC, OLD = "http://www.w3.org/2000/09/xmldsig#", "http://www.w3.org/2001/04/xmldsig-more#", "http://www.w3.org/2001/04/xmlenc#", "http://www.w3.org/TR/"
FILTER, EXC, XPATH = "http://www.w3.org/2002/06/xmldsig-filter2", "http://www.w3.org/2001/10/xml-exc-c14n#", OLD + "1999/REC-xpath-19991116"
ALGORITHMS = [*(MORE + "hmac-sha" + bits for bits in ("224", "256", "384", "512")), DSIG + "hmac-sha1", DSIG + "sha1", MORE + "sha224", ENC + "sha256",
              MORE + "sha384", ENC + "sha512", DSIG + "base64", DSIG + "enveloped-signature", XPATH, FILTER, OLD + "1999/REC-xslt-19991116",
              OLD + "2001/REC-xml-c14n-20010315", "http://www.w3.org/2006/12/xml-c14n11", EXC, "#WithComments", DSIG + "Manifest", DSIG]
# What is put into documents and other files.
PIECES = """< > </ /> & ; &#x0; &#xD; &#13; &#x10FFFF; &lt; &amp; &quot; ]]> <!-- --> <!----> <?p?> <? ?> <![CDATA[ <![CDATA[<&]]> <!DOCTYPE " ' = : # // .. 128
\0 \ufeff \u00e9 \ufffe \U0001f600 <a> </a> <a/> <x:a> </x:a> AAAA == <SignedInfo> </SignedInfo> <Reference> </Reference> <Transforms> </Transforms> </Transform>
<XPath> </XPath> <DigestValue> </DigestValue> <Object> </Object> <KeyInfo> </KeyInfo> <Manifest> </Manifest> </Signature>
<HMACOutputLength>128</HMACOutputLength> <KeyName>k1</KeyName>""".split() + ALGORITHMS + [" ", "\n", "\r\n", "\t", "\u2028", "<!DOCTYPE a>", "<!-- - -->", "<?p q?>"] + [
    "<?xml version=\"1.0\" encoding=\"UTF-8\"?>", f'<Signature xmlns="{DSIG}">', f'<Transform Algorithm="{DSIG}base64"/>', '<Reference URI="">',
    f'<Transform Algorithm="{DSIG}enveloped-signature"/>', f'<Transform Algorithm="{XPATH}"><XPath>not(self::text())</XPath></Transform>',
    f'<Transform Algorithm="{FILTER}"><XPath xmlns="{FILTER}" Filter="intersect">//*</XPath><XPath xmlns="{FILTER}" Filter="union">/</XPath></Transform>',
    f'<InclusiveNamespaces xmlns="{EXC}" PrefixList="#default x"/>'] + [
    f' {name}="{value}"' for name, values in {
        "Algorithm": ALGORITHMS, "xmlns": ["", "u", DSIG], "xmlns:x": ["u", "v", "../r"], "xmlns:xml": ["http://www.w3.org/XML/1998/namespace"], "x:a": ["1"],
        "a": ["1", "&#9;<"], "Id": ["obj", "a"], "xml:id": ["a"], "xml:lang": ["e"], "xml:base": ["..", "http://h/a/b?c#d"], "standalone": ["yes"],
        "encoding": ["latin1"], "Type": [DSIG + "Manifest", DSIG + "Object"], "Filter": ["union", "subtract"],
        "URI": ["", "#a", "#obj", "#xpointer(/)", "#xpointer(id('a'))", "../a", "%2e%2e/a", "//h/a", "a?b"]}.items() for value in values]
XPATH_PIECES = ("/ // . .. * @* @ :: ( ) [ ] [1] [last()] [position()>1] | + - *2 = != < <= > >= , ' \" '' $a 0 1 1.5 9007199254740993 x: r: text() node() comment() "
                "processing-instruction('p')").split() + [" div ", " mod ", " and ", " or ", " "] + [
    axis + "::" for axis in ("ancestor ancestor-or-self attribute child descendant descendant-or-self following following-sibling namespace parent preceding "
                             "preceding-sibling self").split()] + [
    name + "(" for name in ("last position count id local-name namespace-uri name string concat starts-with contains substring-before substring-after "
                            "substring string-length normalize-space translate boolean not true false lang number sum floor ceiling round here").split()]
EXPRESSIONS = [
    "true()", "not(self::comment())", "//*[@Id]", "self::node()[position()=last()]", "count(ancestor-or-self::*)>2", "ancestor-or-self::*[local-name()='SignedInfo']",
    "string-length(normalize-space(.)) mod 2 = 1", "contains(name(),'e') or starts-with(namespace-uri(),'urn')", "id('a b')/child::node()", "sum(//@*) > -1",
    "following::*|preceding-sibling::node()", "namespace::*", "count(descendant::*) = count(//*) - 1 * 2", "substring('12345',2,3)='234' and not(lang('en'))",
    "translate(concat('a',.,\"b\"),'ab','AB')", "boolean(self::text()) = true()", "count(//@*|//namespace::node()|/)", "(//*)[2]/..", "number('7') <= floor(7)"]
METHODS = ["c14n10", "c14n10-comments", "c14n11", "c14n11-comments", "exc", "exc-comments"]
OTHER_WORDS = ["--prefixes", "--id", "--xpath", "--key", "--index", "--base", "--catalog", "--views", "--manifests", "--method", "--digest", "--keys", "--", "-h",
               "validate", "sign", "canon", "template", "hmac-sha1", "sha512", "#default x", "https://h/a/", "1000000", "4294967297", "0", "k1", "\u00e9"] + METHODS
CATALOG = "https://folder.invalid/minutes.txt register.xml\nhttps://h/a register.xml\nurn:a report.txt\n"

# What stands before the C library. It takes the program over at its start, and never returns. TABLES is what `tables` gives.
SHIM = r"""
#define _GNU_SOURCE
#include <dlfcn.h>
#include <errno.h>
#include <fcntl.h>
#include <link.h>
#include <signal.h>
#include <stddef.h>
#include <stdint.h>
#include <stdio.h>
#include <stdlib.h>
#include <string.h>
#include <sys/mman.h>
#include <sys/prctl.h>
#include <unistd.h>
#define COUNT(list) (long)(sizeof(list) / sizeof *(list))
enum { VALIDATE, SIGN, CANON, WITH_XPATH, TEMPLATE, OTHER, FIRST_FILE = 100, VIEW = 200, KEPT = 4096 };
struct octets { unsigned char *at; long size, room; };
struct example { struct octets document, keys; long files; const char *names[4]; struct octets octets[4]; };
static struct state {
    long ends[6][8], runs, inputs, kept;
    char wrong[256];
    long words, files, sizes[FILES];
    char names[FILES][64], word[WORDS][WORD_LIMIT];
    unsigned char bytes[FILES][FILE_LIMIT];
} *now;
TABLES

/* The program: its start, its memory, its files. `end` is how the run that is under way has ended so far. */
extern void *__libc_malloc(size_t), *__libc_realloc(void *, size_t), __libc_free(void *);
static int (*program)(int, char **, char **), inside;
static void (**starts)(int, char **, char **);
static long start_count, read_to[FILES];
static struct ending {
    long status, views, view_size, files_beside, files_outside, live, requests, refused;
    struct octets out, err, view_octets, view_lines;
} first, again, *end;
static void put(struct octets *text, const void *from, long size) {
    if (text->size + size > text->room) text->at = __libc_realloc(text->at, text->room = 2 * (text->size + size));
    memcpy(text->at + text->size, from, size);
    text->size += size;
}
static void *given(void *block, int is_new) {
    if (inside) end->requests++, end->refused += !block, end->live += block && is_new;
    return block;
}
void *malloc(size_t size) {  // what is read of it before it is written is other in another run
    void *block = given(__libc_malloc(size), 1);
    return inside && block ? memset(block, now->runs, size) : block;
}
void *realloc(void *block, size_t size) { return given(__libc_realloc(block, size), !block); }
void free(void *block) { if (inside && block) end->live--; __libc_free(block); }
int mkdir(const char *path, mode_t mode) { return 0; }
int open(const char *path, int flags, ...) {
    if ((flags & O_ACCMODE) != O_RDONLY) {
        const char *name = strrchr(path, '/') ? strrchr(path, '/') : path;
        put(&end->view_octets, name, strlen(name) + 1);
        end->views++, end->view_size = 0;
        return VIEW;
    }
    for (long k = 0; k < now->files; k++) {
        if (strcmp(path, now->names[k])) continue;
        read_to[k] = 0, end->files_beside += k > 2;
        return FIRST_FILE + k;
    }
    end->files_beside++, end->files_outside += *path == '/' || !strncmp(path, "../", 3) || strstr(path, "/../") != 0;
    errno = ENOENT;
    return -1;
}
ssize_t read(int file, void *into, size_t size) {
    long k = file - FIRST_FILE, left = now->sizes[k] - read_to[k];
    if ((long)size > left) size = left;
    memcpy(into, now->bytes[k] + read_to[k], size);
    read_to[k] += size;
    return size;
}
ssize_t write(int file, const void *from, size_t size) {
    put(file == 1 ? &end->out : file == 2 ? &end->err : &end->view_octets, from, size);
    end->view_size += size;
    return size;
}
int close(int file) {
    char line[64];
    if (file == VIEW) put(&end->view_lines, line, sprintf(line, "reference %ld octets %ld\n", end->views, end->view_size));
    return 0;
}
static void perform(struct ending *ending) {
    static char *words[WORDS + 2] = {"xmldsig"};
    for (long k = 0; k <= now->words; k++) words[k + 1] = k < now->words ? now->word[k] : 0;
    memset(end = ending, 0, offsetof(struct ending, out));
    end->out.size = end->err.size = end->view_octets.size = end->view_lines.size = 0;
    for (long k = 0; k < start_count; k++) starts[k](now->words + 1, words, environ);  // one of them keeps the words
    inside = 1;
    end->status = program(now->words + 1, words, environ) & 255;
    inside = 0, now->runs++;
}

/* Changed copies. A document goes with the key file and the files of an example. */
static uint64_t seed;
static long example;
static struct pool { struct origin { struct octets text; long example; } at[KEPT]; long given, count; } documents, expressions;
static long chance(long below) {
    seed ^= seed << 13, seed ^= seed >> 7, seed ^= seed << 17;
    return (long)(seed * 0x2545F4914F6CDD1D >> 33) % below;
}
static void keep(struct pool *pool, const void *octets, long size, long example) {
    struct origin *origin = &pool->at[pool->count < KEPT ? pool->count++ : pool->given + chance(KEPT - pool->given)];
    origin->text.size = 0, origin->example = example;
    put(&origin->text, octets, size);
}
static const struct origin *one_of(const struct pool *pool) { return &pool->at[chance(chance(2) ? pool->given : pool->count)]; }
static void replace(long k, long at, long gone, const void *octets, long size) {
    static unsigned char copy[FILE_LIMIT];
    if (size > FILE_LIMIT - (now->sizes[k] - gone)) return;
    memcpy(copy, octets, size);
    memmove(now->bytes[k] + at + size, now->bytes[k] + at + gone, now->sizes[k] - at - gone);
    memcpy(now->bytes[k] + at, copy, size);
    now->sizes[k] += size - gone;
}
static long somewhere(const unsigned char *octets, long size) {  // half of the time in front of a delimiter
    long at = chance(size + 1);
    if (chance(2)) while (at < size && !strchr("<>\"'= :;/()[]", octets[at])) at++;
    return at;
}
static long in_front_of(const unsigned char *octets, long size, long at, const char *delimiters) {
    while (at < size && !strchr(delimiters, octets[at])) at++;
    return at;
}
static struct octets element(const unsigned char *octets, long size) {  // some element, or its tag where no end tag is found
    char name[64] = "</";
    long at = chance(size + 1), length = 2;
    while (at + 1 < size && !(octets[at] == '<' && (octets[at + 1] | 32) >= 'a' && (octets[at + 1] | 32) <= 'z')) at++;
    if (at + 1 >= size) at = somewhere(octets, size), size = at + chance(size - at + 1);  // of an expression: some part
    for (; length < 60 && at + length - 1 < size && !strchr(" \t\r\n/>", octets[at + length - 1]); length++) name[length] = octets[at + length - 1];
    const unsigned char *last = memmem(octets + at, size - at, name, length), *close = memchr(last ? last : octets + at, '>', size - (last ? last - octets : at));
    return (struct octets){(unsigned char *)octets + at, close ? close + 1 - octets - at : size - at};
}
static void change(long k, const struct origin *other, const struct octets *pieces, long count) {
    unsigned char *octets = now->bytes[k], octet;
    for (long turns = "\1\1\1\1\2\4"[chance(6)]; turns > 0; turns--) {
        long size = now->sizes[k], at = somewhere(octets, size), to = somewhere(octets, size), span = 1 + chance(40), many = 1L << chance(chance(4) ? 2 : 10);
        if (span > size - at) span = size - at;
        struct octets piece = pieces[chance(count)], part = element(octets, size), theirs = element(other->text.at, other->text.size);
        int is_xml = part.size && *part.at == '<';
        long start = part.at - octets, edge = is_xml ? in_front_of(octets, size, to, "<") : to, value = in_front_of(octets, size, at, "\"") + 1;
        switch (chance(4) ? 7 + chance(6) : chance(7)) {  // mostly what may leave a document well-formed
        case 0: octet = chance(256); replace(k, at, at < size, &octet, 1); break;
        case 1: replace(k, at, span, "", 0); break;
        case 2: replace(k, at, span, piece.at, piece.size); break;
        case 3: replace(k, at, 0, octets + at, span); break;
        case 4: replace(k, to, 0, octets + at, span); break;
        case 5: if (!chance(8)) now->sizes[k] = at; break;
        case 6: at = somewhere(other->text.at, other->text.size), span = other->text.size - at;
            replace(k, to, 0, other->text.at + at, span < 40 ? span : 1 + chance(span)); break;
        case 7: if (is_xml && *piece.at == ' ') to = in_front_of(octets, size, to, ">"), to -= to && octets[to - 1] == '/';
            if (is_xml && *piece.at == '<') to = edge;
            while (many--) replace(k, to, 0, piece.at, piece.size);
            break;
        case 8: replace(k, edge, 0, part.at, part.size); break;
        case 9: replace(k, start, part.size, "", 0); break;
        case 10: if (chance(2)) replace(k, edge, 0, theirs.at, theirs.size); else replace(k, start, part.size, theirs.at, theirs.size); break;
        case 11: if (value < size) replace(k, value, in_front_of(octets, size, value, "\"") - value, piece.at + (*piece.at == ' '), piece.size - (*piece.at == ' ')); break;
        default: for (long n = 0; n < many; n++) replace(k, start + part.size, 0, is_xml ? "</a>" : ")", is_xml ? 4 : 1);
            while (many--) replace(k, start, 0, is_xml ? "<a>" : "(", is_xml ? 3 : 1);
        }
    }
}

/* An input: the words and the files. */
#define ANY(list) ((char *)(list)[chance(COUNT(list))].at)
#define CHANGE(k, other, list) change(k, other, list, COUNT(list))
static void file(const char *name, const struct octets *text) {
    strcpy(now->names[now->files], name);
    memcpy(now->bytes[now->files], text->at, now->sizes[now->files] = text->size);
    now->files++;
}
static void lay(const struct octets *document, long number) {
    now->words = now->files = 0, example = number;
    file("d.xml", document), file("k.txt", &EXAMPLES[number].keys), file("c.txt", &CATALOG);
    for (long k = 0; k < EXAMPLES[number].files; k++) file(EXAMPLES[number].names[k], &EXAMPLES[number].octets[k]);
}
static void say(const char *word) { if (now->words < WORDS) strncpy(now->word[now->words++], word, WORD_LIMIT - 1); }
static void say_changed(const void *text, long size) {
    long k = FILES - 1;  // no input has as many files
    memcpy(now->bytes[k], text, now->sizes[k] = size);
    if (chance(16)) CHANGE(k, one_of(&expressions), XPATH_PIECES);
    now->bytes[k][now->sizes[k] < EXPRESSION_LIMIT ? now->sizes[k] : EXPRESSION_LIMIT] = 0;
    say((char *)now->bytes[k]);
}
static void change_words(void) {
    for (long turns = 1 + chance(3), k; turns > 0 && now->words; turns--) {
        switch (k = chance(now->words), chance(4)) {
        case 0: memmove(now->word[k], now->word[k + 1], (WORDS - k - 1) * WORD_LIMIT), now->words--; break;
        case 1: say(now->word[k]); break;
        case 2: strcpy(now->word[k], ANY(OTHER_WORDS)); break;
        default: say_changed(now->word[k], strlen(now->word[k])), strcpy(now->word[k], now->word[--now->words]);
        }
    }
}
static int compose(void) {
    static const int often[] = {VALIDATE, VALIDATE, VALIDATE, VALIDATE, VALIDATE, SIGN, SIGN, SIGN, SIGN, SIGN, CANON, CANON, WITH_XPATH, WITH_XPATH, TEMPLATE, OTHER};
    int command = often[chance(COUNT(often))], way = command == OTHER ? chance(OTHER) : command;
    const struct origin *origin = one_of(&documents), *other = one_of(&documents), *expression = one_of(&expressions);
    lay(&origin->text, origin->example);
    if (way != WITH_XPATH || !chance(4)) CHANGE(0, other, PIECES);
    if (!chance(16)) CHANGE(1, other, PIECES);
    if (chance(4)) CHANGE(2, other, PIECES);
    if (now->files > 3 && !chance(8)) CHANGE(3 + chance(now->files - 3), other, PIECES);
    say(way == VALIDATE ? "validate" : way == SIGN ? "sign" : way == TEMPLATE ? "template" : "canon"), say("d.xml");
    if (way <= SIGN) say("--keys"), say("k.txt");
    if (way <= SIGN && !chance(8)) say("--index"), say(chance(2) ? "2" : "3");
    if (way <= SIGN && !chance(16)) say("--catalog"), say("c.txt");
    if (way == VALIDATE) say("--views"), say("v");
    if (way == VALIDATE && !chance(4)) say("--manifests");
    if (way == TEMPLATE && chance(2)) say("--key"), say("k1");
    if (way == CANON || way == WITH_XPATH) say("--method"), say(ANY(METHODS));
    if (way == CANON && now->word[now->words - 1][0] == 'e' && chance(2)) say("--prefixes"), say("#default x d r");
    if (way == CANON && !chance(3)) say("--id"), say(ANY(IDS));
    if (way == WITH_XPATH) say("--xpath"), say_changed(expression->text.at, expression->text.size);
    if (command == OTHER) change_words();
    return command;
}

/* How it ends. */
static uint64_t sum(const void *octets, long size, uint64_t sum) {
    for (const unsigned char *at = octets; size > 0; size--) sum = (sum ^ *at++) * 0x100000001B3;
    return sum;
}
static int are_same(const struct octets *one, const struct octets *other) { return one->size == other->size && !memcmp(one->at, other->at, one->size); }
static int begins(const struct octets *text, const char *with) { return text->size >= (long)strlen(with) && !memcmp(text->at, with, strlen(with)); }
static int is_line(const struct octets *text, const char *with) { return begins(text, with) && memchr(text->at, '\n', text->size) == text->at + text->size - 1; }
static struct octets first_key(const struct octets *keys) {  // its digits: examples may share a key
    long at = 0, end;
    while (at < keys->size && keys->at[at] == '#') at = in_front_of(keys->at, keys->size, at, "\n") + 1;
    end = in_front_of(keys->at, keys->size, at, " ");
    return (struct octets){keys->at + at, end - at};
}
static int is_known(const struct ending *ending, int from_now_on) {  // whether such views are signed under the first key
    static uint64_t known[1 << 16];
    const struct octets key = first_key(&EXAMPLES[example].keys), *views = &ending->view_octets;
    uint64_t both = sum(views->at, views->size, sum(key.at, key.size, 1)), k = both & 0xffff;
    while (known[k] && known[k] != both) k = (k + 1) & 0xffff;
    if (from_now_on) known[k] = both;
    return known[k] == both;
}
static const char *fault(const struct ending *ending, int command) {  // what is wrong with an ending, if anything is
    int status = ending->status, validates = now->words && !strcmp(now->word[0], "validate"), has_catalog = 0;
    for (long k = 0; k < now->words; k++) has_catalog |= !strcmp(now->word[k], "--catalog");
    if (ending->live) return "memory is not given back";
    if (status > 3 && !(status == 7 && ending->refused)) return "a status that is not allowed";
    if (status < 2 ? ending->err.size : ending->out.size) return "out and err";
    if (status == 1 && !(validates && is_line(&ending->out, "invalid "))) return "the line on out";
    if (status > 1 && !is_line(&ending->err, status == 2 ? "refused " : status == 3 ? "usage: " : "fault memory")) return "the line on err";
    if (ending->views && (status || !validates)) return "views of what is not valid";
    long told = 6 + ending->view_lines.size;
    if (validates && !status && (!begins(&ending->out, "valid\n") || ending->out.size < told || memcmp(ending->out.at + 6, ending->view_lines.at, told - 6)
        || (command == VALIDATE && ending->out.size > told && ending->out.at[told] != 'm'))) return "the lines of the views";
    if (command == OTHER) return 0;
    if (ending->files_beside && (command > SIGN || (status == 1 && !begins(&ending->out, "invalid digests")))) return "a file that is not to be asked for";
    return ending->files_outside && !has_catalog ? "a file outside the folder" : 0;
}
static int holds(void) {  // whether the words, on what the first run wrote, end in status 0
    memcpy(now->bytes[0], first.out.at, now->sizes[0] = first.out.size);
    perform(&again);
    return !again.status && !fault(&again, OTHER);
}
static const char *fault_of_next(int command, int is_new) {  // what is wrong with what the first run wrote
    if (first.out.size > FILE_LIMIT) return 0;
    if (command == CANON && !strcmp(now->word[now->words - 2], "--id")) now->words -= 2;
    if (command == CANON && (!holds() || !are_same(&first.out, &again.out))) return "a canonical form has another one";
    if (command == SIGN && (!holds() || !are_same(&first.out, &again.out))) return "what is signed is signed otherwise";
    if (command == SIGN) {
        strcpy(now->word[0], "validate"), say("--views"), say("v");
        if (!holds()) return "what is signed is not valid";
        if (is_new) keep(&documents, first.out.at, first.out.size, example), is_known(&again, 1);
    }
    if (command == TEMPLATE) now->words = 0, say("canon"), say("d.xml"), say("--method"), say("c14n10");
    return command == TEMPLATE && !holds() ? "a template that can't be read" : 0;
}
static int keep_if_new(int command) {  // by status, line without its numbers, and how much memory was asked for and written, as powers of two
    static char is_seen[1 << 16], *const unread[] = {"refused NotWellFormed", "refused Namespaces", "refused Encoding", "refused DocType", "refused NotXPath"};
    uint64_t shape = sum(&command, sizeof command, first.status * 64 + 63 - __builtin_clzl(first.requests | 1));
    for (long k = 0; k < first.err.size; k++) if (first.err.at[k] < '0' || first.err.at[k] > '9') shape = sum(&first.err.at[k], 1, shape);
    shape = sum((long[]){63 - __builtin_clzl(first.out.size | 1)}, sizeof(long), shape);
    char *seen = &is_seen[(shape ^ shape >> 16) & 0xffff], *expression = now->word[now->words - 1];
    if (command == OTHER || *seen) return 0;
    *seen = 1, now->kept++;
    for (long k = 0; k < 5; k++) if (begins(&first.err, unread[k])) return 1;
    if (command == WITH_XPATH) keep(&expressions, expression, strlen(expression), 0);
    else keep(&documents, now->bytes[0], now->sizes[0], example);
    return 1;
}
static void learn(void) {
    for (long k = 0; k < COUNT(EXPRESSIONS); k++) keep(&expressions, EXPRESSIONS[k].at, EXPRESSIONS[k].size, 0);
    for (long k = 0; k < COUNT(EXAMPLES) * 3; k++) {
        if (k % 3 == 0) keep(&documents, EXAMPLES[k / 3].document.at, EXAMPLES[k / 3].document.size, k / 3);
        lay(&EXAMPLES[k / 3].document, k / 3);
        say("validate"), say("d.xml"), say("--keys"), say("k.txt"), say("--views"), say("v"), say("--index"), say((char[]){'1' + k % 3, 0});
        perform(&first);
        if (!first.status) is_known(&first, 1);
    }
    documents.given = documents.count, expressions.given = expressions.count;
}
static int fuzz(int count, char **words, char **environment) {
    prctl(PR_SET_PDEATHSIG, SIGKILL);
    now = mmap(0, sizeof *now, PROT_READ | PROT_WRITE, MAP_SHARED, openat(AT_FDCWD, getenv("FUZZ_STATE"), O_RDWR), 0);
    seed = atol(getenv("FUZZ_SEED")) * 0x9E3779B97F4A7C15 + 1;
    for (learn();; now->inputs++) {
        int command = compose();
        perform(&first);
        now->ends[command][first.status & 7]++;
        const char *why = fault(&first, command);
        if (!why && first.views && !is_known(&first, 0)) why = "views that nobody signed";
        int is_new = !why && keep_if_new(command);
        if (!why && !chance(16) && (perform(&again), first.status != again.status || !are_same(&first.out, &again.out) || !are_same(&first.err, &again.err)
            || !are_same(&first.view_octets, &again.view_octets))) why = "another ending of the same input";
        if (!why && !first.status) why = fault_of_next(command, is_new);
        if (why) strcpy(now->wrong, why), _exit(1);
    }
}
static int starts_of(struct dl_phdr_info *info, size_t size, void *unused) {
    const ElfW(Phdr) *header = info->dlpi_phdr;
    while (header->p_type != PT_DYNAMIC) header++;
    for (ElfW(Dyn) *entry = (void *)(info->dlpi_addr + header->p_vaddr); entry->d_tag; entry++) {
        if (entry->d_tag == DT_INIT_ARRAY) starts = (void *)(info->dlpi_addr + entry->d_un.d_ptr);
        if (entry->d_tag == DT_INIT_ARRAYSZ) start_count = entry->d_un.d_val / sizeof *starts;
    }
    return 1;  // the first is the program
}
int __libc_start_main(int (*main)(int, char **, char **), int count, char **words, void (*init)(void), void (*fini)(void), void (*leave)(void), void *stack) {
    int (*start)() = dlsym(RTLD_NEXT, "__libc_start_main");
    program = main;
    dl_iterate_phdr(starts_of, 0);
    return start(fuzz, count, words, init, fini, leave, stack);
}
"""


class State(ctypes.Structure):
    """What a process tells: how its runs ended, and the input that it is at. As `struct state` of the shim."""
    _fields_ = [("ends", ctypes.c_long * 8 * len(COMMANDS)), ("runs", ctypes.c_long), ("inputs", ctypes.c_long), ("kept", ctypes.c_long),
                ("wrong", ctypes.c_char * 256), ("words", ctypes.c_long), ("files", ctypes.c_long), ("sizes", ctypes.c_long * SIZES["FILES"]),
                ("names", ctypes.c_char * 64 * SIZES["FILES"]), ("word", ctypes.c_char * SIZES["WORD_LIMIT"] * SIZES["WORDS"]),
                ("bytes", ctypes.c_ubyte * SIZES["FILE_LIMIT"] * SIZES["FILES"])]


def octets(content):
    """Octets, in C."""
    return '{(unsigned char *)"' + "".join(f"\\{octet:03o}" for octet in content) + f'", {len(content)}, 0}}'


def table(kind, name, rows):
    """An array of such rows, in C."""
    return f"static const struct {kind} {name}[] = {{" + ",\n".join(rows) + "};\n"


def tables():
    """The examples with their keys and the files that they name, and what is put into them, in C."""
    examples, ids = [], {"absent"}
    for folder, _, names in sorted(os.walk(os.path.join(TOP, "examples"))):
        files = {}
        for name in sorted(names):
            with open(os.path.join(folder, name), "rb") as file:
                files[name] = file.read()
        documents = [content for name, content in files.items() if name.endswith(".xml")]
        beside = [name for name in files if any(f'"{name}"'.encode() in document for document in documents)]
        for document in documents:
            ids.update(re.findall('Id="([^"]*)"', document.decode()))
            keys = files.get("keys.txt", files.get("k.txt"))
            examples.append(f"{{{octets(document)}, {octets(keys)}, {len(beside)}, {{" + ", ".join(f'"{name}"' for name in beside) + "}, {"
                            + ", ".join(octets(files[name]) for name in beside) + "}}")
    lists = {"METHODS": METHODS, "PIECES": PIECES + XPATH_PIECES, "XPATH_PIECES": XPATH_PIECES, "EXPRESSIONS": EXPRESSIONS, "OTHER_WORDS": OTHER_WORDS, "IDS": sorted(ids)}
    return "".join([table("example", "EXAMPLES", examples), f"static const struct octets CATALOG = {octets(CATALOG.encode())};\n",
                    *(table("octets", name, [octets(text.encode()) for text in texts]) for name, texts in lists.items())])


class Worker:
    """A process of the program under the shim, and what it tells."""

    def __init__(self, scratch, shim, seed):
        self.seed, self.seen, self.since = seed, -1, time.monotonic()
        path = os.path.join(scratch, f"state-{seed}")
        with open(path, "w+b") as file:
            file.truncate(ctypes.sizeof(State))
            self.state = State.from_buffer(mmap.mmap(file.fileno(), 0))
        self.process = subprocess.Popen([PROGRAM], cwd=scratch, env={"LD_PRELOAD": shim, "FUZZ_STATE": path, "FUZZ_SEED": str(seed)},
                                        preexec_fn=lambda: resource.setrlimit(resource.RLIMIT_STACK, (STACK, STACK)))

    def fault(self):
        """What is wrong with the input that it is at, if anything is."""
        if self.process.poll() is not None:
            return self.state.wrong.decode() or f"a crash, {self.process.returncode}"
        if self.state.runs != self.seen:
            self.seen, self.since = self.state.runs, time.monotonic()
        return "a run takes a minute" if time.monotonic() > self.since + 60 else None

    def end(self):
        self.process.kill()
        self.process.wait()

    def write_input(self):
        """Writes the files of the input to a folder, and gives the command that runs the program there."""
        folder, state = tempfile.mkdtemp(prefix="fuzz-wrong-"), self.state
        for k in range(state.files):
            with open(os.path.join(folder, state.names[k].value.decode()), "wb") as file:
                file.write(bytes(state.bytes[k][:state.sizes[k]]))
        return f"cd {folder} && {PROGRAM} " + " ".join(shlex.quote(os.fsdecode(state.word[k].value)) for k in range(state.words))


def watch(workers, until):
    """Waits for the time, and tells of each process that stops before; gives how many did."""
    going = list(workers)
    while time.monotonic() < until and going:
        time.sleep(0.5)
        for worker in list(going):
            why = worker.fault()
            if why:
                going.remove(worker)
                worker.end()
                print(f"seed {worker.seed}, input {worker.state.inputs + 1}: {why}: {worker.write_input()}", flush=True)
    return len(workers) - len(going)


def main():
    words = sys.argv[1:] + ["1", "1", str(os.cpu_count() or 1)][len(sys.argv) - 1:]
    minutes, seed, processes = float(words[0]), int(words[1]), int(words[2])
    if not os.path.exists(PROGRAM):
        sys.exit("tests/fuzz.py: build the program first: bin/xmldsig selftest 1")
    with tempfile.TemporaryDirectory() as scratch:
        shim = os.path.join(scratch, "shim.so")
        subprocess.run(["cc", "-std=gnu11", "-shared", "-fPIC", "-O2", "-fno-builtin", "-w", *(f"-D{name}={size}" for name, size in SIZES.items()), "-x", "c", "-o", shim, "-", "-ldl"],
                       input=SHIM.replace("TABLES", tables()), text=True, check=True)
        workers = [Worker(scratch, shim, seed * processes + k) for k in range(processes)]
        stopped = watch(workers, time.monotonic() + 60 * minutes)
        for worker in workers:
            worker.end()
    for k, command in enumerate(COMMANDS):
        ends = [sum(worker.state.ends[k][status] for worker in workers) for status in range(8)]
        print(f"{command}: {sum(ends)}; by status: " + ", ".join(f"{status}: {number}" for status, number in enumerate(ends) if number))
    inputs, runs, kept = (sum(getattr(worker.state, name) for worker in workers) for name in ("inputs", "runs", "kept"))
    print(f"{inputs} inputs, {runs} runs, {kept} new ways to end; {minutes} minutes, seed {seed}, {processes} processes, {stopped} stopped")
    sys.exit(1 if stopped else 0)


main()
