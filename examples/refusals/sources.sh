#!/usr/bin/env bash
# sources.sh FOLDER: writes sources NAME.hume into the folder, and a line for each: `NAME CODE LINE` where it is refused,
# `NAME grammatical` where the grammar takes it. What is refused stands in a line of its own, so that the line shows the place.
set -euo pipefail
export LC_ALL=C
folder=$1

put() {
    printf '%s' "$2" >"$folder/$1.hume"
}

# grammatical NAME TEXT
grammatical() {
    put "$1" "$2"
    printf '%s grammatical\n' "$1"
}

# refused NAME CODE FRONT TOKEN END: the token is reported
refused() {
    put "$1" "$3"$'\n'"$4"$'\n'"$5"
    printf '%s %s 2\n' "$1" "$2"
}

# early NAME TEXT: the end is reported
early() {
    put "$1" "$2"$'\n'
    printf '%s 20 2\n' "$1"
}

# times TEXT COUNT: the text so often
times() {
    local text=
    for ((n = 0; n < $2; n++)); do text+=$1; done
    printf '%s' "$text"
}

# words NAME CODE LINE FRONT WORD..: each word behind the front, in line 2
words() {
    local name=$1 code=$2 line=$3 front=$4 count=0
    shift 4
    for word in "$@"; do
        count=$((count + 1))
        put "$name-$count" "$front"$'\n'"$word"$'\n'
        printf '%s-%s %s %s\n' "$name" "$count" "$code" "$line"
    done
}

# nest NAME FRONT MOST BEFORE TOKEN BEHIND MIDDLE CLOSE END: so many pieces, each the three texts, are grammatical, and one more
# is refused as too deep at its token
nest() {
    local name=$1 front=$2 most=$3 piece=$4$5$6
    grammatical "$name-fits" "$front$(times "$piece" "$most")$7$(times "$8" "$most")$9"
    refused "$name-deep" 77 "$front$(times "$piece" "$most")$4" "$5" "$6$7$(times "$8" $((most + 1)))$9"
}

# cuts NAME SOURCE ANSWERS: each front of the source, by what is reported of it: e the end, t its last token, l that its bytes are
# no tokens, a that it is grammatical
cuts() {
    local name=$1 source=$2 answers=$3 count front
    for ((count = 1; count <= ${#source}; count++)); do
        front=${source:0:count}
        case ${answers:count-1:1} in
        a) grammatical "$name-$count" "$front" ;;
        e) early "$name-$count" "$front" ;;
        t) refused "$name-$count" 20 "${front% *}" "${front##* }" '' ;;
        l) put "$name-$count" "$front" && printf '%s-%s 10 1\n' "$name" "$count" ;;
        esac
    done
}

equation='f :: bool -> bool; f x = '
left='f :: bool -> bool; f '
constructor='data D = A '

# Declarations.
grammatical smallest-1 ''
grammatical smallest-2 'data D = A;'
grammatical smallest-3 ' exception E;'
grammatical smallest-4 'f :: bool -> bool; f x = x;'
grammatical smallest-5 'box b in (x :: bool) out (y :: bool) match (x) -> x;'
grammatical smallest-6 'box b in (x :: bool) out (y :: bool) fair (_) -> *;'
grammatical smallest-7 'stream s from "i";'
grammatical smallest-8 'stream s to "o";'
grammatical smallest-9 'wire a to b;'
grammatical options-1 'data D = A | B (int 8, nat 16) vector 2 of char D | C bool;'
grammatical options-2 'exception E (int 8, vector 2 of bool);'
grammatical options-3 "f :: int 8 -> D -> (bool, char) -> bool; f 0 A (true, 'c') = true; f (-1) (B x _) (_, _) = false;"
grammatical options-4 'f :: bool -> bool; f false = case true of false -> true | _ -> false end;'
grammatical options-5 'box b in (x :: bool, z :: int 8) out (y :: bool, w :: D) fair (x, *) -> (x, A) | (_*, 1) -> (*, raise E 1) | (true, (A x)) -> f x handle E e -> (e, *) | F _ -> * | G -> (true, A);'
grammatical options-6 'wire a.x to b.y initial (1 as nat 8) + 2;'
grammatical options-7 'wire a to b.y initial <<1, 2>>;'
grammatical three-1 'exception E (bool, int 8, D);'
grammatical three-2 'f :: (bool, char, D) -> bool; f (x, _, A y) = x;'
grammatical three-3 'box b in (x :: bool, y :: bool, z :: D) out (w :: bool) fair (*, _*, A x) -> x;'
grammatical functions-1 'f :: bool -> bool; f true = false; f x = x; g :: bool -> bool; g x = x; g y = y; h :: bool -> bool; h x = x;'
grammatical functions-2 'data D = A; f :: D -> bool; f A = true; stream s from "i"; g :: D -> D; g x = x; exception E;'
grammatical functions-3 'f :: bool -> bool; g x = x; h y = y; data D = A;'
refused wrong-1 20 'stream s from "i" ; wire s' 't' ''
refused wrong-2 20 'f' 'x' '= x;'
refused wrong-3 20 'f :: bool -> bool;' 'data' 'D = A;'
refused wrong-4 20 'f :: bool -> bool; f' '::' 'bool -> bool;'
refused wrong-5 20 'f :: bool' ';' 'f x = x;'
refused wrong-6 20 'f :: bool -> bool; f' '=' 'x;'
refused wrong-7 20 'data' 'd' '= A;'
refused wrong-8 20 'data D = A |' ';' ''
refused wrong-9 20 'exception E bool' 'bool' ';'
refused wrong-10 20 'box b in (x :: bool) out (' ')' 'match (x) -> x;'
refused wrong-11 20 'box b in (x :: bool) out (y :: bool)' '(' 'x) -> x;'
refused wrong-12 20 'stream s to' 'i' ';'
refused wrong-13 20 'wire a.b' '.' 'c to d;'
refused wrong-14 20 'wire a to b;' ';' ''

# How many values a wire holds: any number of 64 bits, before the first value, and nothing but a number.
grammatical depth-1 'wire a to b @ 2;'
grammatical depth-2 'wire a.x to b.y @ 0 initial 1;'
grammatical depth-3 'wire a.x to b@18446744073709551615 initial v @ 2;'
refused depth-4 11 'wire a to b @' 18446744073709551616 ';'
refused depth-5 20 'wire a to b @' ';' ''
refused depth-6 20 'wire a to b @' initial '1;'
refused depth-7 20 'wire a to b @' - '1;'
refused depth-8 20 'wire a to b @' n ';'
refused depth-9 20 'wire a to b @' '(' '2);'
refused depth-10 20 'wire a to b' 2 ';'
refused depth-11 20 'wire a to b.y' 2 'initial 1;'
refused depth-12 20 'wire a to b @ 2' @ '2;'
refused depth-13 20 'wire a to b @ 2' 2 ';'
refused depth-14 20 'wire a' @ '2 to b;'
refused depth-15 20 'wire a to b initial' @ '2;'
grammatical depth-16 'wire a to b initial 1 @ 2;'
early depth-17 'wire a to b @'
early depth-18 'wire a to b @ 2'

early end-1 'f :: bool -> bool; '
early end-2 'data D = A'
early end-3 'wire'
early end-4 'f :: bool -> bool; f'
early end-5 'box b in (x :: bool) out (y :: bool) match (x) -> x handle'

# Expressions. Comparisons don't group; all other operators do.
compares=(== /= '<' '<=' '>' '>=')
others=(or and + - '*' div mod @)
for first in "${compares[@]}" "${others[@]}"; do
    for second in "${others[@]}"; do
        count=$((${count-0} + 1))
        grammatical "group-$count" "${equation}a $first b $second c;"
        grammatical "group-$count-turned" "${equation}a $second b $first c;"
    done
done
for first in "${compares[@]}"; do
    words "compare-$((count += 1))" 20 2 "${equation}a $first b" "${compares[@]}"
done
count=0
for text in '- 1' '- x' '- ( 1 )' '- - 1' '- f x @ 2' '- 1 - - 2' 'x - 1' 'f ( - 1 )' '- x * y' 'not - x' \
    'let x = 1 in x + 2' 'if true then a else b or c' 'case x of 0 -> a | 1 -> b | 2 -> c end' 'raise Full' \
    'update v i ( x )' 'f x ( g y ) Nil' "Pair 1 'c'" '( a , b , c )' '( a as nat 8 )' '<< a >>' '<< a , 1 >>' '*' '* * *' \
    '( a )' '( ( a ) )' '( a * b ) + c' 'f ( x )'; do
    grammatical "form-$((count += 1))" "$equation$text;"
done
refused form-wrong-1 20 "${equation}let x" 1 'in x;'
refused form-wrong-2 20 "${equation}( a ," ')' ';'
refused form-wrong-3 20 "$equation<<" '>>' ';'
refused form-wrong-4 20 "${equation}update v i" + ';'
refused form-wrong-5 20 "${equation}-" ')' ';'
refused form-wrong-7 20 "${equation}- 1" @ 'x;'
refused form-wrong-6 20 "${equation}raise Full x" + '1;'
early form-end-1 "$equation"
early form-end-2 "${equation}if a then b"
early form-end-3 "${equation}case x of 0 -> a |"

# Depth: what is 64 deep is grammatical.
nest parens "$equation" 63 '' '(' '' x ')' ';'
nest let-body "$equation" 63 '' let ' y = x in ' x '' ';'
nest let-value "$equation" 63 '' let ' y = ' x ' in y' ';'
nest if-else "$equation" 63 '' if ' x then y else ' x '' ';'
nest if-then "$equation" 63 '' if ' x then ' x ' else y' ';'
nest if-test "$equation" 63 '' if ' ' x ' then x else y' ';'
nest case-alternative "$equation" 63 '' case ' x of y -> ' x ' end' ';'
nest case-subject "$equation" 63 '' case ' ' x ' of y -> y end' ';'
nest not "$equation" 63 '' not ' ' x '' ';'
nest vector-first "$equation" 63 '' '<<' '' x '>>' ';'
nest vector-second "$equation" 63 '' '<<' 'x, ' x '>>' ';'
nest tuple-second "$equation" 63 '' '(' 'x, ' x ')' ';'
nest tuple-first "$equation" 63 '' '(' '' x ', x)' ';'
nest cast "$equation" 63 '' '(' '' x ' as bool)' ';'
# Operators group to the left: the left part of the 64th is 64 deep.
for operator in "${others[@]}"; do
    nest "left-$((count += 1))" "$equation" 63 'x ' "$operator" ' ' x '' ';'
done
# The sum of 64 names is 64 deep. What binds tighter than it makes it no deeper.
for operator in == '<' '>=' and or -; do
    grammatical "sum-$((count += 1))-fits" "$equation$(times 'x + ' 62)x $operator x;"
    refused "sum-$count-deep" 77 "$equation$(times 'x + ' 63)x" "$operator" 'x;'
done
for text in 'x * y' 'x mod y' 'x @ y' 'x y' '- x' 'not x'; do
    grammatical "sum-$((count += 1))" "$equation$(times 'x + ' 63)$text;"
done
nest right "${equation}x + " 62 '' '(' '' x ')' ';'
# A negation is reported behind its minus: with its number it would be one deep.
grammatical minus-name-fits "$equation$(times '- ' 63)x;"
refused minus-name-deep 77 "$equation$(times '- ' 64)" x ';'
grammatical minus-number-fits "$equation$(times '- ' 64)1;"
refused minus-number-deep 77 "$equation$(times '- ' 64)" - '1;'
# An argument is reported where it begins, and `update` itself.
nest argument-1 "$equation(" 31 'f ' '(' '' x ')' ');'
nest argument-2 "$equation(" 31 'f ' y ' (' x ')' ');'
nest argument-3 "$equation(" 31 'A ' '(' '' x ')' ');'
nest argument-4 "$equation(" 31 'raise E ' '(' '' x ')' ');'
nest argument-5 "$equation(" 31 '' update ' x y (' x ')' ');'
nest argument-6 "$equation(" 31 '' update ' x (' x ') y' ');'
nest argument-7 "$equation(" 31 '' update ' (' x ') x y' ');'
nest rule 'box b in (x :: bool) out (y :: bool) match (x) -> ' 63 '' '(' '' x ')' ';'
nest handler 'box b in (x :: bool) out (y :: bool) match (x) -> x handle E -> ' 63 '' '(' '' x ')' ';'
nest initial 'wire a to b initial ' 63 '' '(' '' x ')' ';'
nest type-vector "$constructor" 63 '' vector ' 1 of ' bool '' ';'
nest type-second "$constructor" 63 '' '(' 'bool, ' bool ')' ';'
nest type-first "$constructor" 63 '' '(' '' bool ', bool)' ';'
nest pattern "$left" 63 '' '(' '' x ')' ' = x;'
nest pattern-second "$left" 63 '' '(' 'x, ' x ')' ' = x;'
nest pattern-first "$left" 63 '' '(' '' x ', x)' ' = x;'
nest input 'box b in (x :: bool) out (y :: bool) match (' 63 '' '(' '' x ')' ') -> x;'
grammatical pattern-part-fits "$left$(times '(' 62)A x$(times ')' 62) = x;"
refused pattern-part-deep 77 "$left$(times '(' 63)A" x "$(times ')' 63) = x;"
nest pattern-parts "${equation}case x of (" 31 'A ' '(' '' y ')' ') -> x end;'
# Types and patterns within an expression are measured by themselves.
grammatical cast-type-fits "$equation$(times '(' 62)(x as $(times 'vector 1 of ' 63)bool)$(times ')' 62);"
refused cast-type-deep 77 "$equation$(times '(' 62)(x as $(times 'vector 1 of ' 63)" vector "1 of bool)$(times ')' 62);"
cases=$(times 'case x of y -> ' 62)
ends=$(times ' end' 62)
grammatical case-pattern-fits "$equation${cases}case x of $(times '(' 63)y$(times ')' 63) -> x end$ends;"
refused case-pattern-deep 77 "$equation${cases}case x of $(times '(' 63)" '(' "y$(times ')' 64) -> x end$ends;"

# Each token where only one more is allowed.
atoms=(x A 7 "'c'" true false '(' '<<')
forms=(let if case raise not update)
operators=(or and == /= '<' '<=' '>' '>=' + - '*' div mod @)
closers=(')' , as)
atom_patterns=(x A 7 "'c'" true false '(' - _)
types=(bool char int nat vector)
rest=(data exception box in out match fair handle stream from to wire initial then else of end '>>' = '->' '|' ';' '::' . '_*' '"q"')
inner="$equation$(times '(' 63)"
words parens-deep 77 2 "$inner" let if case not update '(' '<<'
words parens-goes-on 20 3 "$inner" x A 7 - '*' raise false
words parens-wrong 20 2 "$inner" or and == /= '<' '<=' '>' '>=' + div mod @ "${closers[@]}" "${types[@]}" "${rest[@]}" _
inner="$equation$(times '- ' 64)"
words minus-deep 77 2 "$inner" x A "'c'" true false not update '(' '<<' - '*'
words minus-goes-on 20 3 "$inner" 7
words minus-wrong 20 2 "$inner" let if case raise or and == /= '<' '<=' '>' '>=' + div mod @ "${closers[@]}" "${types[@]}" "${rest[@]}" _
for name in f A; do
    inner="$equation$(times '(' 63)$name"
    words "name-$name-deep" 77 2 "$inner" "${atoms[@]}" "${operators[@]}"
    words "name-$name-goes-on" 20 3 "$inner" ')' ,
    words "name-$name-wrong" 20 2 "$inner" "${forms[@]}" "${types[@]}" "${rest[@]}"
done
inner="$equation$(times '(' 63)raise E"
words raise-deep 77 2 "$inner" "${atoms[@]}"
words raise-goes-on 20 3 "$inner" ')' ,
words raise-wrong 20 2 "$inner" "${forms[@]}" "${operators[@]}" "${types[@]}" "${rest[@]}" _
inner="$left$(times '(' 63)"
words in-pattern-deep 77 2 "$inner" '('
words in-pattern-goes-on 20 3 "$inner" x A 7 - _ true
pattern_wrong=("${forms[@]}" or and == /= '<' '<=' '>' '>=' + '*' div mod @ '<<' "${types[@]}" "${rest[@]}" as)
words in-pattern-wrong 20 2 "$inner" "${pattern_wrong[@]}"
words part-deep 77 2 "${inner}A" "${atom_patterns[@]}"
words part-goes-on 20 3 "${inner}A" ')' ,
words part-wrong 20 2 "${inner}A" "${pattern_wrong[@]}"
inner="$constructor$(times '(bool, ' 63)"
words in-type-deep 77 2 "$inner" vector '('
words in-type-goes-on 20 3 "$inner" bool char int nat A
words in-type-wrong 20 2 "$inner" x 7 "'c'" true false '<<' "${forms[@]}" "${operators[@]}" "${closers[@]}" "${rest[@]}" _

# An early end is reported as such however deep it is.
early deep-end-1 "$equation$(times 'let y = x in ' 63)"
early deep-end-2 "$equation$(times 'if x then y else ' 63)"
early deep-end-3 "$equation$(times 'case x of y -> ' 63)"
early deep-end-4 "$equation$(times 'not ' 63)"
early deep-end-5 "$equation$(times '- ' 64)"
early deep-end-6 "$equation$(times '<<' 63)"
early deep-end-7 "$equation$(times '(' 63)"
early deep-end-8 "$equation$(times '(' 63)f"
early deep-end-9 "$equation$(times '(' 63)raise"
early deep-end-10 "$equation$(times '(' 63)raise E"
early deep-end-11 "$equation$(times '(' 62)update"
early deep-end-12 "$equation$(times '(' 63)x as"
early deep-end-13 "$equation$(times 'x + ' 63)"
early deep-end-14 "$equation$(times 'x + ' 63)x"

# Sources that are cut. A cut word is a name, a cut `->` a minus, and a cut `::` or quoted text no token.
cuts six-lines 'box b in (x :: int 32) out (y :: int 32) match (x) -> (x + 1) ; stream s from "i" ; stream t to "o" ; wire s to b.x ; wire b.y to t ; ' \
    'eeeeeeteeeeeleetteeeeeetteeeeeleetteeeeeetttteeeeeeteeeeeeeeeeaaeeeeeeeeettteelleeaaeeeeeeeeeteelleeaaeeeeeeeteeeeeeaaeeeeeeeeeteeeeaa'
cuts ten-lines 'data Light = Red | Amber | Green ; exception Broken nat 8 ; next :: Light -> Light ; next Red = Green ; next light = case light of Green -> Amber | _ -> Red end ; box b in (light :: Light, tick :: bool) out (shown :: Light) fair (light, true) -> next light | (*, _*) -> raise Broken 3 handle Broken number -> Red ; stream s from "i" ; wire s to b.light initial (Red) ; ' \
    'eeeeeeeeeeeeeeeeeeeeeeeeeeeeeeeeeaaeeeeeeeeeeeeeeeeetteeeeaaeeeeeleeeeeeeeteeeeeeeeeeeeeeeeeeeeeeeeeeeaaeeeeeeeeeeeeeeeeeeeeeeeeeeeeeeeeeeeeeeeeeeeeeeteeeeeeeeeeaaeeeeeeteeeeeeeeeleeeeeeeeeeeeeeleettteeetteeeeeeeeeleeeeeeeeettteeeeeeeeeeeeeeeeteeeeeeeeeeeeeeeeeeeeeeeteeeeeeeeeeeeeeeeettttteeeeeeeeeeeeeeeeteeeeeeaaeeeeeeeeettteelleeaaeeeeeeeteeeeeeeeeetttttteeeeeeeeaa'
refused cut-comment-1 20 '' - ''
# The first lines of a whole source: what is missing is first a declaration's end, and then a wire.
whole=('box b in (x :: int 32) out (y :: int 32)' 'match (x) -> (x + 1) ;' 'stream s from "i" ;' 'stream t to "o" ;' 'wire s to b.x ;')
for cut in '1 20 2' '2 50 1' '4 50 1' '5 52 1'; do
    read -r count code line <<<"$cut"
    printf '%s\n' "${whole[@]:0:count}" >"$folder/cut-lines-$count.hume"
    echo "cut-lines-$count $code $line"
done
put cut-lines-0 "${whole[0]}"
echo 'cut-lines-0 20 1'
# Where no token starts, in line 2: the first such place is reported, whatever comes behind it.
words no-token 10 2 'data D = A;' '$' 'a / b' ':::::' "'ab'" "x '" "'''" "'\\'" "'\\r'" $'\'\t\'' '""' 'a "b' $'"a\nb"' $'a\vb' \
    $'ab\200 99999999999999999999' $'$\n$'
words wide-number 11 2 'data D = A;' $'99999999999999999999 \200'
# A byte beyond those of the language may stand in a comment.
grammatical byte-in-comment $'-- \310\n'
refused byte-outside 10 '' $'\310' ''
grammatical cut-comment-2 '--'
grammatical cut-comment-3 '-- a'$'\n'
grammatical cut-comment-4 '-- a'$'\n''wire a to b ; -- b'$'\n\n'
put cut-comment-5 $'-- a\nwire a'
echo 'cut-comment-5 20 2'
