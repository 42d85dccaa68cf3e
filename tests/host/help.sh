#!/bin/sh
# Help and version.
. "$(dirname "$0")/common.sh"
inputs a.out

run --help
says 'help ends with 0' ended 0
says 'help goes to standard output' told_nothing
for word in 'convert FILE -o IMAGE' 'convert FILE --c-array NAME' 'list FILE' 'blocks IMAGE' 'load IMAGE' 'load --coff FILE' \
    'check FILE IMAGE' 'stats FILE' 'map FILE|IMAGE' 'inspect FILE' 'explain [CODE]' 'refused CODE INDEX' \
    --skip "Quote it, --skip '.test*'" '--order ORDER' "3 or 'big'" 'No image tells its order' 'of code 16 INDEX is 0' 'in one step' 'one of the inputs' 'written through' '16777216' 'exit status'; do
    says "help speaks of: $word" grep -q -F -e "$word" out
done
says 'help is no wider than a screen' [ "$(wc -L <out)" -le 80 ]
for command in convert list blocks load check stats map inspect explain; do
    run "$command" --help
    says "help of $command" ended 0
    says "help of $command begins with its usage" grep -q "^usage: scanboot $command " out
    says "help of $command is no wider than a screen" [ "$(wc -L <out)" -le 80 ]
done
run convert a.out -o u.img -h
says 'help instead of work' absent u.img

# Asked for in other words.
for command in '' convert load; do
    # shellcheck disable=SC2086
    "$scanboot" $command --help >asked 2>err
    for words in "help $command" "$command -h" "$command --hel"; do
        # shellcheck disable=SC2086
        run $words
        says "help in other words: $words" same out asked
    done
done
run --version
says 'the version' grep -q '^scanboot [0-9]*\.[0-9]*\.[0-9]*$' out
mv out version
run -V
says 'the version in short' same out version

end
