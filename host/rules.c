#include "rules.h"
#include "scanboot.h"

#include <stdlib.h>
#include <string.h>
#include <strings.h>

#define NAMED(code) code, #code

const struct rule rules[] = {
    { NAMED(SCANBOOT_OK), "Every rule of the call holds.",
      "Nothing has gone wrong.",
      "Nothing." },
    { NAMED(SCANBOOT_FILE_TOO_LONG), "A COFF file has at most 16777216 bytes.",
      "The file carries debug information, or it is no linker output at all: an archive, a memory dump, a disk image.",
      "Strip symbols and debug information with the maker's strip tool, or link without them. What is loaded is the "
      "same." },
    { NAMED(SCANBOOT_FILE_TOO_SHORT), "A COFF file begins with a header of 22 bytes.",
      "The file is empty or was cut: a link that failed, a full disk, a copy that was broken off; or the wrong file "
      "was given.",
      "Look at the file's length, and link or copy it again." },
    { NAMED(SCANBOOT_FILE_VERSION), "The first two bytes are C2h 00h: COFF version 2, its numbers little-endian.",
      "The file is of another kind. Most often it is an ELF file, which newer C6000 tools make by default, or a boot "
      "image that was converted already; or it is an older COFF version, a COFF file of the other byte order, or a Hex "
      "file.",
      "Ask 'scanboot inspect' what it is. For ELF, compile and link all of the program for the COFF ABI "
      "(--abi=coffabi). An image is shown by 'scanboot blocks'." },
    { NAMED(SCANBOOT_TARGET), "The file header's target is 0099h, a C6000.",
      "The file was linked for another processor of the same maker, in a project that builds for several.",
      "Take the C6000's output. 'scanboot inspect' names the target." },
    { NAMED(SCANBOOT_OPTIONAL_SIZE), "The optional header has 28 bytes, or there is none.",
      "Another tool has rewritten the header, or the file is damaged.",
      "Take the file as the linker wrote it." },
    { NAMED(SCANBOOT_UNRESOLVED), "Flag 0002h of the file header is set: all references are resolved.",
      "This is an object file of the assembler or compiler (.obj), or the linker was told to make relocatable output "
      "(-r), or it has left symbols unresolved.",
      "Link to the end, and give the linker's output (.out). Addresses in an unlinked file mean nothing." },
    { NAMED(SCANBOOT_TOO_MANY_SECTIONS), "A file has at most 256 sections.",
      "Every function was given a section of its own, and the linker was not told to gather them; or the file is "
      "damaged.",
      "Gather them in the linker command file: .text: { *(.text:*) } and the like." },
    { NAMED(SCANBOOT_HEADERS_CUT), "The section headers, 48 bytes each, lie wholly in the file.",
      "The file was cut: a transfer broken off, or a disk that was full while linking.",
      "Compare its length with the original's, and copy or link it again." },
    { NAMED(SCANBOOT_MAGIC), "The optional header begins with 0108h.",
      "The file is damaged, or its optional header is of another maker.",
      "Take the file as the linker wrote it. A transfer in text mode (FTP) damages files in this way." },
    { NAMED(SCANBOOT_RAW_DATA),
      "The raw data of a kept section begins behind the section headers and ends in the file.",
      "The file was cut at its end, most often by a transfer or a full disk. If the data would begin inside the "
      "headers, the file was changed by hand or by a faulty tool.",
      "Compare its length with the original's, and copy or link it again. 'scanboot inspect' tells how many bytes are "
      "missing." },
    { NAMED(SCANBOOT_SECTION_LOAD), "The load address of a kept section plus its size is at most 2^32.",
      "A memory range of the linker command file is too long, or an address has a digit too many or too few.",
      "Correct the MEMORY part of the linker command file." },
    { NAMED(SCANBOOT_SECTION_RUN), "The run address of a kept section plus its size is at most 2^32.",
      "The memory range that the section is told to run in (run = ...) is too long in the linker command file, or an "
      "address has a digit too many or too few.",
      "Correct the MEMORY part of the linker command file." },
    { NAMED(SCANBOOT_SECTIONS_MEET), "No two kept sections load to the same address.",
      "Overlays that share their load address, where only the run address may be shared; or a section that is for "
      "tools and not for the processor (attributes, notes) stands at address 0 and is not marked as not to be loaded; "
      "a plain section, which has no type flag, is loaded too if it has raw data.",
      "Give each overlay a load address of its own: load = FLASH, run = IRAM, or UNION with separate loads. Mark "
      "others type = DSECT, COPY or NOLOAD, or leave them out by name (--skip). 'scanboot inspect' names the other "
      "section and the addresses." },
    { NAMED(SCANBOOT_IMAGE_WOULD_BE_TOO_LONG), "The image that would be made has at most 16777216 bytes.",
      "Kept sections share raw data in the file, or large tables are initialised, with zeros for example.",
      "Let large buffers be uninitialised (.bss, .far), or load in two parts. 'scanboot list' shows the sizes." },
    { NAMED(SCANBOOT_OUTPUT_TOO_SHORT), "The buffer that is lent for the image, or the listing, holds all of it.",
      "A host program with a fixed buffer, and a firmware that has grown. The command-line program never meets this "
      "rule.",
      "Ask scanboot_measure for the length first. SCANBOOT_LISTING_BYTES are enough for every listing." },
    { NAMED(SCANBOOT_SECTION_NAME),
      "Where patterns are given, the name of each section that is otherwise kept can be read: from its header, or from the "
      "string table behind the symbols, where it begins behind the table's own size and ends with a zero byte inside "
      "table and file.",
      "A tool has stripped the symbols, and with them the string table, but left the headers as they were; or the file "
      "was cut at its end, where that table stands.",
      "Take the file as the linker wrote it. 'scanboot inspect' with the same --skip names the section, and where its "
      "name should stand. Without patterns no name is read, and none is missed." },
    { NAMED(SCANBOOT_PATTERNS), "A call takes at most 16 patterns, and each has 1 to 64 bytes.",
      "A script has put an empty variable behind --skip, or gives one pattern for each section. In C, two zero bytes "
      "stand side by side among the patterns, or a length is that of the whole buffer and not of what is used of it.",
      "Of too many, let one take several names: '.test*' takes all that begin so, and '?' any one character. Leave an "
      "empty pattern away, and shorten one that is too long by a '*' in place of a part of it." },
    { NAMED(SCANBOOT_IMAGE_TOO_LONG), "An image has at most 16777216 bytes.",
      "What was given is no image, but a dump of a whole flash or memory.",
      "Cut the image out of the dump: 'scanboot list' of its COFF file tells its length." },
    { NAMED(SCANBOOT_IMAGE_CUT),
      "An image holds its entry point, whole blocks with their padding, and an end flag of four zero bytes.",
      "The image was cut in a transfer or by a flash partition that is too small; its last four zero bytes were "
      "stripped; or the file is no image, and what was taken for a size is something else; or its numbers are of the "
      "other byte order.",
      "Compare its length with what 'scanboot list' says of the COFF file. 'scanboot inspect' shows the blocks up to "
      "the cut, or in which byte order it would be read: give that (--order)." },
    { NAMED(SCANBOOT_TOO_MANY_BLOCKS), "An image has at most 4096 blocks.",
      "Another tool has cut the sections into very small blocks.",
      "Convert the COFF file again: one block for each kept section." },
    { NAMED(SCANBOOT_BLOCK_LOAD), "The load address of a block plus its size is at most 2^32.",
      "A byte of the image was changed, or it was made by hand or by another tool.",
      "Convert the COFF file again, and check the image with 'scanboot check' where it is stored." },
    { NAMED(SCANBOOT_BLOCK_RUN), "The run address of a block plus its size is at most 2^32.",
      "A byte of the image was changed, or it was made by hand or by another tool.",
      "Convert the COFF file again, and check the image with 'scanboot check' where it is stored." },
    { NAMED(SCANBOOT_PADDING), "The bytes that fill a block up to a multiple of four are 0.",
      "Another tool has padded with FFh or with what was in its buffer; or a byte of the image was changed; or a size "
      "field was, so that a block's last bytes are taken for padding; or the blocks' bytes stand in another byte order.",
      "Convert the COFF file again; or if 'scanboot inspect' tells another byte order of the image, give that (--order). "
      "Padding is not loaded, but a change there shows that something was changed." },
    { NAMED(SCANBOOT_BYTES_FOLLOW), "Nothing follows the end flag.",
      "The image was read back from a flash and has the rest of its sector behind it (FFh or 00h); or a section of "
      "size 0 was written as a block, whose size is the end flag; or the file is no image, and begins with zeros.",
      "Cut it to the length that 'scanboot list' says of the COFF file. 'scanboot inspect' tells how many bytes "
      "follow." },
    { NAMED(SCANBOOT_BLOCKS_MEET), "No two blocks load to the same address.",
      "Two images were joined, a block was added twice, or sections of overlays were written by another tool.",
      "Convert the COFF file again. 'scanboot inspect' names the other block and the addresses." },
    { NAMED(SCANBOOT_WINDOW), "A window has at most 16777216 bytes and ends at 2^32 or before.",
      "The window was meant to hold all of the processor's memory, whose parts lie far apart; or base and size were "
      "swapped.",
      "Load each part of the memory into a window of its own." },
    { NAMED(SCANBOOT_OUTSIDE), "Every block, or kept section, lies wholly inside the window.",
      "The firmware has grown or has a section in another memory (external memory beside internal, for example); or "
      "the base is wrong by a digit.",
      "Look at the addresses with 'scanboot list' or 'scanboot blocks'. A load fills one window: with several memories "
      "walk the image by scanboot_block_at, as examples/host.c does." },
    { NAMED(SCANBOOT_NO_SUCH_BLOCK), "Blocks are asked for by a number below the count, counted from 0.",
      "A loop of a host program that counts from 1, or goes on to the count itself. The command-line program never "
      "meets this rule.",
      "Ask scanboot_read_image for the count, or walk with scanboot_block_at." },
    { NAMED(SCANBOOT_ORDER), "The byte order of an image is 0, 1, 2 or 3.",
      "Something else was put behind --order, a number of bytes or bits for example. In C, another parameter stands in "
      "the order's place, or a variable was never set.",
      "For an image as it is made without --order it is 0. It is 1 where entry point, sizes and addresses stand reversed "
      "in each four bytes, 2 where the blocks' bytes and their padding do, and 3 where both do." },
    { NAMED(SCANBOOT_ENTRY_DIFFERS), "File and image have the same entry point.",
      "The file was linked again after the image was made, or the two are of different versions.",
      "Convert the file again, or find the file that the image was made from. 'scanboot check --all' tells what else "
      "differs." },
    { NAMED(SCANBOOT_PLACEMENT_DIFFERS),
      "File and image place the same byte with the same run address at every address, or nothing.",
      "The file was linked again after the image was made, the image was patched, or a byte was lost in a transfer; or "
      "the image was made with other patterns or in another byte order, or by a version before 1.3.0, which left plain "
      "sections out.",
      "'scanboot check --all' lists every range that differs. A few single bytes: a patch or a fault. Nearly all: "
      "another build. Whole sections that the image lacks: check with the --skip that it was made with, or convert "
      "again. If it is the same in another byte order, the line that tells the difference ends with that (--order)." },
    { 0, NULL, NULL, NULL, NULL },
};

static int is_name_of(const struct rule *rule, const char *name)
{
    return strcasecmp(name, rule->name) == 0 || strcasecmp(name, rule->name + strlen("SCANBOOT_")) == 0;
}

const struct rule *rule_called(const char *code)
{
    int digits = code[0] != '\0' && strspn(code, "0123456789") == strlen(code) && strlen(code) < 9;
    for (const struct rule *rule = rules; rule->name != NULL; rule++)
        if (digits ? strtoul(code, NULL, 10) == rule->code : is_name_of(rule, code))
            return rule;
    return NULL;
}
