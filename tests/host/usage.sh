#!/bin/sh
# Usage.
. "$(dirname "$0")/common.sh"
inputs a.out a.img

# misuse NAME WHAT WORDS..: status 2, what is wrong, and where help is found: the command's own, or the program's where none is known
misuse() {
    name=$1
    what=$2
    shift 2
    run "$@"
    says "$name: status" ended 2
    says "$name: words" told_of "$what" 2
    says "$name: help" [ "$(tail -n 1 err)" = "scanboot: try 'scanboot ${known-$1 }--help'" ]
    says "$name: nothing written" wrote_nothing
}
known=''
misuse 'no command' 'no command given'
misuse 'no command behind --' 'no command given' --
misuse 'unknown command' 'unknown command konvert' konvert a.out
misuse 'unknown option of the program' 'unknown option -q' -q convert a.out
misuse 'unknown long option of the program' 'unknown option --quiet' --quiet
unset known
misuse 'help with an unknown command' 'unknown command konvert' help konvert
misuse 'help with two commands' 'one word too many: list' help convert list
misuse 'no file' 'no file given to list' list
misuse 'no output' '-o OUTPUT is missing' convert a.out
misuse 'no name behind -o' 'nothing stands behind -o' convert a.out -o
misuse 'no name behind --output' 'nothing stands behind --output' convert a.out --output
misuse 'two outputs' '-o OUTPUT is given twice' convert a.out -o u.img -o v.img
misuse 'two outputs by two names' '-o OUTPUT is given twice' convert a.out -ou.img --output=v.img
misuse 'JSON twice' '--json is given twice' list --json a.out --json
misuse 'two files' 'one word too many: a.out' convert a.out a.out -o u.img
misuse 'one file for a check' 'no IMAGE given to check' check a.out
misuse 'three files for a check' 'one word too many: b.img' check a.out a.img b.img
misuse 'standard input twice' 'only one file can be standard input' check - -
misuse 'unknown option' 'unknown option -q' convert -q a.out -o u.img
misuse 'an output to a listing' 'unknown option -o' list a.out -o u.img
misuse 'JSON of a conversion' 'unknown option --json' convert a.out --json -o u.img
misuse 'unknown letter among others' 'unknown option -q' convert -qo u.img a.out
misuse 'unknown letter that is none' 'unknown option -?' convert -é a.out
misuse 'unknown option in two lines' 'unknown option --a?b' convert "$(printf -- '--a\nb')" a.out
misuse 'a value to a flag' '--json takes no value' list --json=1 a.out
misuse 'no base' '--base ADDR is missing' load a.img --size 8 -o u.img
misuse 'no size' '--size N is missing' load a.img --base 8 -o u.img
for number in '' x 0x 12z -1 +1 ' 1' 0b1 1.0 0x1g; do
    misuse "no number: '$number'" '--base ADDR is no number' load a.img --base "$number" --size 8 -o u.img
done
misuse 'over 64 bits' '--size N is too large' load a.img --base 0 --size 18446744073709551616 -o u.img
misuse 'over 64 bits, hexadecimal' '--base ADDR is too large' load a.img --base 0x10000000000000000 --size 8 -o u.img
misuse 'an option that begins two' 'unknown option --o' convert a.out --o u.img
misuse 'a fill over 255' '--fill BYTE is too large' load a.img --base 0 --size 8 --fill 256 -o u.img
for name in '' 1a a-b 'a b' int class é; do
    misuse "no name in C: '$name'" 'not a name in C: ' convert a.out --c-array "$name" -o u.img
done
# what C23 and C++23 have for words, beside int and class
own='alignas alignof and and_eq asm auto bitand bitor bool break case catch char char8_t char16_t char32_t co_await co_return
    co_yield compl concept const const_cast consteval constexpr constinit continue decltype default delete do double dynamic_cast else
    enum explicit export extern false float for friend goto if inline long mutable namespace new noexcept not not_eq nullptr operator
    or or_eq private protected public register reinterpret_cast requires restrict return short signed sizeof static static_assert
    static_cast struct switch template this thread_local throw true try typedef typeid typename typeof typeof_unqual union unsigned
    using virtual void volatile wchar_t while xor xor_eq main'
for name in $own; do
    run convert a.out --c-array "$name" -o u.img
    says "a word of C or C++: $name" told_of "not a name in C: $name" 2
done
for name in _Alignas _Atomic _BitInt _Bool _Complex _Decimal32 _Generic _Imaginary _Noreturn _Static_assert _Thread_local _Boot \
    __boot boot__table boot__ __func__ _boot _ boot_; do
    misuse "a reserved name: $name" "a name that C or C++ reserves: $name" convert a.out --c-array "$name" -o u.img
done
for name in scanboot_h SCANBOOT_H scanboot_load_image Scanboot_x; do
    misuse "a name of the library: $name" "a name of the library's own: $name" convert a.out --c-array "$name" -o u.img
done
says 'wrong usage makes no output' absent u.img

end
