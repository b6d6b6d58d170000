#!/bin/bash
# Runs the built program on real files and streams, and compares what it writes and its statuses with what is owed.
# Argument: the program (build/langtag, if there is none). The last line counts; the status is 1 if any run failed.
program=$(realpath "${1:-"$(dirname "$0")/../build/langtag"}")
sample=$(realpath "$(dirname "$0")/../examples/sample-registry.txt")
objects=$(realpath "$(dirname "$0")/json_objects.py")
round=$(realpath "$(dirname "$0")/../examples/loop-registry.txt")
number=$(cat "$(dirname "$0")/../VERSION")
folder=$(mktemp -d)
trap 'rm -rf "$folder"' EXIT
cd "$folder" || exit 1
passed=0
failed=0

# is NAME STATUS STDOUT STDERR: compares what the last run wrote to `out` and `err`, and its status.
is() {
    local ended=$?
    if [ "$ended" = "$2" ] && [ "$(cat out; echo .)" = "$(printf '%b' "$3"; echo .)" ] &&
        [ "$(cat err; echo .)" = "$(printf '%b' "$4"; echo .)" ]; then
        passed=$((passed + 1))
    else
        failed=$((failed + 1))
        echo "failed: $1: status $ended; wanted $2"
        head -n 3 out err
    fi
}

# record KEY..: a record of a registry, a field an argument.
record() {
    echo '%%'
    printf '%s\n' "$@"
}

{
    echo 'File-Date: 2024-01-01'
    record 'Type: language' 'Subtag: en'
    record 'Type: language' 'Subtag: fr'
} > old
{
    echo 'File-Date: 2024-02-01'
    record 'Type: language' 'Subtag: en'
} > new
printf 'no registry\n' > other
: > empty

run() { "$program" "$@" < empty > out 2> err; }

# one command after another, with its files in their places
run classify ZH-yue-hant-hk; is classify 0 'langtag zh-yue-Hant-HK\n' ''
run classify en_US; is 'classify refuses' 1 '! BadByte 1\n' ''
run check "$sample"; is check 0 'ok 46\n' ''
run check other; is 'check refuses' 2 'jar BadLine line 1\n' ''
# the sample cut after each byte: a number of entries, or one line that says why not
cut=
for end in $(seq 0 "$(wc -c < "$sample")"); do
    head -c "$end" "$sample" > front
    run check front
    case "$?$(cat out err)" in
        0'ok '* | 2'jar '* | 2'record '* | 2'check '*) ;;
        *) cut="$cut $end" ;;
    esac
done
(exit 0); printf '%s' "$cut" > out; : > err; is 'check: the sample cut after each byte' 0 '' ''
# the registry @: of the environment, and the installed one
LANGTAG_REGISTRY=$sample run check @; is '@: by LANGTAG_REGISTRY' 0 'ok 46\n' ''
LANGTAG_REGISTRY=old run upgrade @ new; is '@: the older registry' 2 'upgrade U1 record 3\n' ''
LANGTAG_REGISTRY=missing run check @; is '@: by the name of no file' 4 '' '! File\n'
mkdir -p place/bin place/share/langtag
cp "$program" place/bin/langtag
env -u LANGTAG_REGISTRY place/bin/langtag check @ > out 2> err; is '@: none is installed' 4 '' '! File\n'
cp "$sample" place/share/langtag/registry.txt
env -u LANGTAG_REGISTRY place/bin/langtag check @ > out 2> err; is '@: the installed one' 0 'ok 46\n' ''
LANGTAG_REGISTRY='' place/bin/langtag equal @ YUE zh-yue > out 2> err; is '@: an empty LANGTAG_REGISTRY is none' 0 'equal\n' ''
LANGTAG_REGISTRY=$'\xff' place/bin/langtag check @ > out 2> err; is '@: LANGTAG_REGISTRY is not UTF-8' 4 '' '! File\n'
cp new @
LANGTAG_REGISTRY=$sample run check ./@; is '@: a file that is called so' 0 'ok 1\n' ''
rm -r place @
# a reader that goes away needs no advice, and a full output does
yes en | "$program" canon --summary "$sample" 2> err | head -n 1 > out; is 'a reader that goes away' 0 'en\n' '! Write\n'
: > out
yes en | head -n 9 | "$program" canon --summary "$sample" > /dev/full 2> err
is 'a full output' 4 '' "! Write\nWrite: The output can't be written: see whether it is closed, or the disk is\nfull.\n"
run extlang "$sample" cmn-hans; is extlang 0 'zh-cmn-Hans\n' ''
run extlang "$sample" en-x; is 'extlang refuses' 1 '! Unfinished 3\n' ''
run equal "$sample" YUE zh-yue; is equal 0 'equal\n' ''
run equal "$sample" en de; is different 1 'different\n' ''
run explain "$sample" sgn-dd; is explain 0 'Region 2 27 sgn-DE\nWhole 1 44 gsg\n= gsg\n' ''
printf 'Region 2 27 sgn-DE\nWhole 1 44 gsg\n= gsg\n' > steps
"$program" verify "$sample" sgn-dd < steps > out 2> err; is verify 0 'ok\n' ''
"$program" explain "$sample" sgn-dd 2> err | "$program" verify "$sample" sgn-dd > out 2>> err; is 'verify what explain prints' 0 'ok\n' ''
sed 's/27/26/' steps | "$program" verify "$sample" sgn-dd > out 2> err; is 'verify: another record' 1 '! NoSuchStep 1\n' ''
sed 's/sgn-DE/sgn-US/' steps | "$program" verify "$sample" sgn-dd > out 2> err; is 'verify: another text' 1 '! BadStep 1\n' ''
sed 's/= gsg/= de/' steps | "$program" verify "$sample" sgn-dd > out 2> err; is 'verify: another end' 1 '! WrongEnd\n' ''
"$program" verify "$sample" en_US < steps > out 2> err; is 'verify refuses' 1 '! BadByte 1\n' ''
"$program" verify other sgn-dd < steps > out 2> err; is 'verify: the registry is refused' 2 'jar BadLine line 1\n' ''
"$program" verify "$sample" sgn-dd <&- > out 2> err; is 'verify: closed input' 4 '' '! Read\n'
: > out
"$program" verify "$sample" sgn-dd < steps > /dev/full 2> err; is 'verify: full output' 4 '' '! Write\n'
# keywords in falling order: their lines are written as they are made
tag=en-u$(for first in {z..a}; do for second in {z..a}; do printf -- '-%s%s' "$first" "$second"; done; done | head -c 1017)
(ulimit -v 40000; "$program" explain "$sample" "$tag") > steps-of-keys 2> err; ended=$?; wc -lc < steps-of-keys > out
(exit "$ended"); is 'explain: 57,292 lines in 40 MB' 0 '   57292 59610480\n' ''
rm steps-of-keys
# a registry that passes, and in which steps in a free order go round: an explanation ends
run check "$round"; is 'check: a registry that goes round' 0 'ok 5\n' ''
run explain "$round" sgn-aa; is 'explain: it ends' 0 'Region 2 3 sgn-DD\nRegion 2 4 sgn-DE\n= sgn-DE\n' ''
{ yes "$(printf 'Region 2 3 sgn-DD\nWhole 1 6 sgn-AA')" | head -n 100000; echo '= sgn-AA'; } | "$program" verify "$round" sgn-aa > out 2> err
is 'verify: 100,000 steps round' 0 'ok\n' ''
# what a registry says of tags; the fields are those of IANA's records
{
    printf 'File-Date: 2025-05-15\n'
    record 'Type: language' 'Subtag: de' 'Description: German' 'Added: 2005-10-16' 'Suppress-Script: Latn'
    record 'Type: language' 'Subtag: zh' 'Description: Chinese' 'Added: 2005-10-16' 'Scope: macrolanguage'
    record 'Type: language' 'Subtag: yue' 'Description: Yue Chinese' 'Description: Cantonese' 'Macrolanguage: zh'
    record 'Type: language' 'Subtag: tlh' 'Description: Klingon' 'Description: tlhIngan Hol'
    record 'Type: language' 'Subtag: ja' 'Description: Japanese'
    record 'Type: extlang' 'Subtag: yue' 'Description: Yue Chinese' 'Description: Cantonese' 'Preferred-Value: yue' 'Prefix: zh' 'Macrolanguage: zh'
    record 'Type: script' 'Subtag: Hant' 'Description: Han (Traditional' ' variant)'
    record 'Type: region' 'Subtag: HK' 'Description: Hong Kong'
    record 'Type: variant' 'Subtag: heploc' 'Description: Hepburn romanization, Library of Congress method' 'Deprecated: 2010-02-07' 'Preferred-Value: alalc97' 'Prefix: ja' 'Comments: Preferred tag is ja-Latn-alalc97'
    record 'Type: variant' 'Subtag: alalc97' 'description: ALA-LC romanization, 1997 edition'
    record 'Type: redundant' 'Tag: zh-Hant' 'Description: traditional Chinese'
    record 'Type: grandfathered' 'Tag: i-klingon' 'Description: Klingon' 'Deprecated: 2004-02-24' 'Preferred-Value: tlh'
} > described
zh='record 3\n     Description      Chinese\n     Scope            macrolanguage\n'
hant='record 8\n     Description      Han (Traditional variant)\n'
run show described zh-YUE-hant-hk
is show 0 "zh-yue-Hant-HK\n1    Language  zh    ${zh}2    Extlang   yue   record 7\n     Description      Yue Chinese\n     Description      Cantonese\n     Preferred-Value  yue\n     Prefix           zh\n     Macrolanguage    zh\n3    Script    Hant  ${hant}4    Region    HK    record 9\n     Description      Hong Kong\nExtlang 2 7 yue-Hant-HK\n= yue-Hant-HK\n\n" ''
run show described zh-hant
is 'show: a redundant tag' 0 "zh-Hant\n1    Whole     zh-Hant  record 12\n     Description      traditional Chinese\n1    Language  zh       ${zh}2    Script    Hant     ${hant}= zh-Hant\n\n" ''
klingon='i-klingon\n1    Grandfathered  i-klingon  record 13\n     Description      Klingon\n     Deprecated       2004-02-24\n     Preferred-Value  tlh\nWhole 1 13 tlh\n= tlh\n\n'
run show described I-KLINGON; is 'show: a grandfathered tag' 0 "$klingon" ''
de='record 2\n     Description      German\n     Suppress-Script  Latn\n'
run show described de-t-zh-hk-m0-und-x-a
is 'show: a source, and what no registry lists' 0 "de-t-zh-hk-m0-und-x-a\n1    Language             de   ${de}2    Singleton            t\n3    SourceLanguage       zh   ${zh}4    SourceRegion         hk   record 9\n     Description      Hong Kong\n5    Separator            m0\n6    Value                und\n7    PrivateUseSingleton  x\n8    PrivateUse           a\n= de-t-zh-hk-m0-und-x-a\n\n" ''
run show described de-foobar en_US i-klingon
is 'show: refused tags, and more' 1 "de-foobar\n1    Language  de      ${de}2    Variant   foobar  not registered\n! UnknownVariant 2\n\nen_US\n! BadByte 1\n\n$klingon" ''
run show described ja-heploc-alalc97
is 'show: a variant would repeat' 1 'ja-heploc-alalc97\n1    Language  ja       record 6\n     Description      Japanese\n2    Variant   heploc   record 10\n     Description      Hepburn romanization, Library of Congress method\n     Deprecated       2010-02-07\n     Preferred-Value  alalc97\n     Prefix           ja\n     Comments         Preferred tag is ja-Latn-alalc97\n3    Variant   alalc97  record 11\n     description      ALA-LC romanization, 1997 edition\n! ReplacementRepeats alalc97\n\n' ''
cat described | "$program" show - i-klingon > out 2> err; is 'show: a registry that comes through a pipe' 0 "$klingon" ''
run show other de; is 'show: the registry is refused' 2 'jar BadLine line 1\n' ''
run show described; ended=$?; head -c 7 err > out; : > err; (exit "$ended"); is 'show: no tag' 3 'error: ' ''
: > out
"$program" show described de > /dev/full 2> err; is 'show: full output' 4 '' '! Write\n'
# as JSON
run show --json described de-foobar en_US zh-YUE
is 'show --json' 1 '{"input":"de-foobar","tag":"de-foobar","rows":[{"place":1,"kind":"Language","text":"de","listing":"Record","record":2,"fields":[{"name":"Description","body":"German"},{"name":"Suppress-Script","body":"Latn"}]},{"place":2,"kind":"Variant","text":"foobar","listing":"Unregistered","record":null,"fields":[]}],"canonical":null,"steps":[],"fault":"UnknownVariant 2"}\n{"input":"en_US","tag":null,"rows":[],"canonical":null,"steps":[],"fault":"BadByte 1"}\n{"input":"zh-YUE","tag":"zh-yue","rows":[{"place":1,"kind":"Language","text":"zh","listing":"Record","record":3,"fields":[{"name":"Description","body":"Chinese"},{"name":"Scope","body":"macrolanguage"}]},{"place":2,"kind":"Extlang","text":"yue","listing":"Record","record":7,"fields":[{"name":"Description","body":"Yue Chinese"},{"name":"Description","body":"Cantonese"},{"name":"Preferred-Value","body":"yue"},{"name":"Prefix","body":"zh"},{"name":"Macrolanguage","body":"zh"}]}],"canonical":"yue","steps":[{"kind":"Extlang","place":2,"record":7}],"fault":null}\n' ''
run show described de-x-a --json; python3 -c 'import json, sys; rows = json.load(sys.stdin)["rows"]; print([(r["listing"], r["record"], len(r["fields"])) for r in rows])' < out > read; mv read out
is 'show --json: private use' 0 "[('Record', 2, 2), ('Unlisted', None, 0), ('Unlisted', None, 0)]\n" ''
# what canonical tags leave alone
for tags in 'en-Latn en' 'sgn-DE-x-a gsg-x-a' 'en-scotland-fonipa en-fonipa-scotland' 'und-Latn-DE de' 'ar-u-ca-islamicc ar-u-ca-islamic-civil'; do
    # shellcheck disable=SC2086
    run equal "$(dirname "$round")/iana-2025-05-15.txt" $tags; is "$tags" 1 'different\n' ''
done
run upgrade old new; is 'upgrade old new' 2 'upgrade U1 record 3\n' ''
run upgrade new old; is 'upgrade new old' 0 'ok\n' ''
run upgrade old old; is 'upgrade old old' 0 'ok\n' ''
run upgrade other new; is 'upgrade: the first is refused' 2 'old jar BadLine line 1\n' ''
run upgrade new other; is 'upgrade: the second is refused' 2 'new jar BadLine line 1\n' ''

# the lines of the standard input, by a pipe and by a file
printf 'zh-yue\r\nen_US\nDE' | "$program" canon "$sample" > out 2> err; is 'canon refuses one' 1 'yue\n! BadByte 1\nde\n' ''
printf 'zh-yue\nDE\n' > lines
"$program" canon "$sample" < lines > out 2> err; is canon 0 'yue\nde\n' ''
"$program" canon other < lines > out 2> err; is 'canon: the registry is refused' 2 'jar BadLine line 1\n' ''

# the same by a table of codes; its rows are those that the Library of Congress publishes
printf 'chi|zho|zh|Chinese|chinois\neng||en|English|anglais\nger|deu|de|German|allemand\n' > table
printf 'chi-yue\r\nENG-GB\nger_AT\nfre\nDEU' > coded
"$program" codes table "$sample" < coded > out 2> err; is 'codes refuses two' 1 'yue\nen-GB\n! BadByte 1\n! UnknownLanguage 1\nde\n' ''
dd bs=1 status=none < coded | "$program" codes table "$sample" > out 2> err; is 'codes: byte by byte' 1 'yue\nen-GB\n! BadByte 1\n! UnknownLanguage 1\nde\n' ''
echo ger-DD | "$program" codes <(cat table) "$sample" > out 2> err; is 'codes: a table that comes through a pipe' 0 'de-DE\n' ''
"$program" codes table "$sample" < lines > out 2> err; is 'codes: no code' 0 'yue\nde\n' ''
"$program" codes empty "$sample" < coded > out 2> err; is 'codes: an empty table' 1 '! UnknownLanguage 1\n! UnknownLanguage 1\n! BadByte 1\n! UnknownLanguage 1\n! UnknownLanguage 1\n' ''
"$program" codes --summary table "$sample" < coded > out 2> err; is 'codes --summary' 1 'yue\nen-GB\n! BadByte 1\n! UnknownLanguage 1\nde\n' '5 lines, 2 refused\n1 BadByte, first in line 3: ger_AT\n  A byte that is no ASCII letter, digit or hyphen: write zh-Hant for zh_Hant;\n  remove quotes, spaces, a byte order mark.\n1 UnknownLanguage, first in line 4: fre\n  fre: BCP 47 writes fr.\n'
"$program" codes other "$sample" < coded > out 2> err; is 'codes: the table is refused' 2 'codes BadRow line 1\n' ''
"$program" codes --summary other "$sample" < coded > out 2> err; is 'codes --summary: the table is refused' 2 'codes BadRow line 1\n' 'BadRow: A line of the table of codes has not five fields: see whether it is\nISO-639-2_utf-8.txt.\nThe file is other.\n'
"$program" codes table other < coded > out 2> err; is 'codes: the registry is refused' 2 'jar BadLine line 1\n' ''
"$program" codes missing "$sample" < coded > out 2> err; is 'codes: no table' 4 '' '! File\n'
"$program" codes table missing < coded > out 2> err; is 'codes: no registry' 4 '' '! File\n'
"$program" codes . "$sample" < coded > out 2> err; is 'codes: a folder' 4 'codes Read line 1\n' ''
(ulimit -v 60000; "$program" codes /dev/zero "$sample" < coded > out 2> err); is 'codes: a table without end, in 60 MB' 2 'codes TableTooLong line 1\n' ''
"$program" codes table "$sample" <&- > out 2> err; is 'codes: closed input' 4 '' '! Read\n'
: > out
"$program" codes table "$sample" < coded > /dev/full 2> err; is 'codes: full output' 4 '' '! Write\n'
printf '1\tger-DD\r\n2\tfre\n3' | "$program" tsv --codes table "$sample" 2 > out 2> err; is 'tsv --codes' 1 '1\tde-DE\t\r\n2\tfre\tUnknownLanguage 1\n3\tNoColumn\n' ''
printf 'id,tag\n1,"CHI-yue"\n2,"fre"\n' | "$program" csv "$sample" tag --codes table --keep > out 2> err; is 'csv --codes --keep' 1 'id,tag,langtag,langtag_fault\n1,"CHI-yue",yue,\n2,"fre",,UnknownLanguage 1\n' ''
printf 'id,tag\n1,ger\n' | "$program" csv "$sample" 2 --codes old > out 2> err; is 'csv --codes: the table is refused' 2 'codes BadRow line 1\n' ''
printf '1\tger\n' | "$program" tsv "$sample" 2 --codes missing > out 2> err; is 'tsv --codes: no table' 4 '' '! File\n'
for words in 'codes table' 'codes table other more' 'canon --codes table' 'tsv table 2 --codes'; do
    # shellcheck disable=SC2086
    "$program" $words < coded > out 2> usage; ended=$?
    head -c 7 usage > err
    (exit "$ended"); is "$words" 3 '' 'error: '
done

# the lines that ranges match
printf 'zh-yue\r\nzh\nyue-Hans\nen_US\nde-Latn-DE\nde-DE' > tags
"$program" match "$sample" yue < tags > out 2> err; is match 0 'zh-yue\r\nyue-Hans\n' ''
"$program" match "$sample" de-de zh < tags > out 2> err; is 'match: two ranges' 0 'zh-yue\r\nzh\nyue-Hans\nde-DE\n' ''
"$program" match --extended "$sample" de-de < tags > out 2> err; is 'match --extended' 0 'de-Latn-DE\nde-DE\n' ''
dd bs=1 status=none < tags | "$program" match "$sample" 'zh-yue' > out 2> err; is 'match: the same byte by byte' 0 'zh-yue\r\nyue-Hans\n' ''
"$program" match "$sample" ja < tags > out 2> err; is 'match: none' 1 '' ''
"$program" match "$sample" de en_US < tags > out 2> err; is 'match: a range is refused' 3 '' '! BadByte range 2\n'
"$program" match --lookup "$sample" fr zh-yue-Hans-GB de < tags > out 2> err; is 'match --lookup' 0 'yue-Hans\n' ''
"$program" match "$sample" yue-Latn --lookup < tags > out 2> err; is 'match --lookup: a carriage return' 0 'zh-yue\r\n' ''
dd bs=1 status=none < tags | "$program" match --lookup "$sample" de-DE-1996 > out 2> err; is 'match --lookup: byte by byte' 0 'de-DE\n' ''
"$program" match --lookup "$sample" '*' ja de < tags > out 2> err; is 'match --lookup: none' 1 '' ''
"$program" match --lookup "$sample" de en_US < tags > out 2> err; is 'match --lookup: a range is refused' 3 '' '! BadByte range 2\n'
"$program" match --lookup "$sample" de-DE < tags > /dev/full 2> err; is 'match --lookup: full output' 4 '' '! Write\n'
"$program" match --lookup --extended "$sample" de < tags > out 2> usage; ended=$?
head -c 7 usage > err
(exit "$ended"); is 'match: two schemes' 3 '' 'error: '
"$program" match --accept 'fr, zh-yue-Hans-GB;q=0.8, de;q=0.7' "$sample" < tags > out 2> err; is 'match --accept' 0 'yue-Hans\n' ''
dd bs=1 status=none < tags | "$program" match --accept 'de-DE-1996, *;q=0' "$sample" > out 2> err; is 'match --accept: none is acceptable' 1 '' ''
"$program" match "$sample" --accept 'yue-Latn, *;q=0.1' < tags > out 2> err; is 'match --accept: a carriage return' 0 'zh-yue\r\n' ''
"$program" match --accept 'de, en_US' "$sample" < tags > out 2> err; is 'match --accept: a header is refused' 3 '' '! BadByte element 2\n'
"$program" match --accept '*' "$sample" < tags > /dev/full 2> err; is 'match --accept: full output' 4 '' '! Write\n'
for words in de --extended --lookup; do
    "$program" match --accept de "$sample" $words < tags > out 2> usage; ended=$?
    head -c 7 usage > err
    (exit "$ended"); is "match --accept and $words" 3 '' 'error: '
done
"$program" match other de < tags > out 2> err; is 'match: the registry is refused' 2 'jar BadLine line 1\n' ''
"$program" match "$sample" de <&- > out 2> err; is 'match: closed input' 4 '' '! Read\n'
: > out
"$program" match "$sample" de < tags > /dev/full 2> err; is 'match: full output' 4 '' '! Write\n'
"$program" match "$sample" < tags > out 2> usage; ended=$?
head -c 7 usage > err
(exit "$ended"); is 'match: no range' 3 '' 'error: '

# the lines as objects of JSON
printf 'zh-yue\r\nDE' | "$program" json "$sample" > out 2> err
is json 0 '{"input":"zh-yue","bytes":null,"canonical":"yue","fault":null,"place":null,"variant":null,"class":"langtag","language":"zh","extlangs":["yue"],"script":null,"region":null,"variants":[],"extensions":[],"private":[]}\n{"input":"DE","bytes":null,"canonical":"de","fault":null,"place":null,"variant":null,"class":"langtag","language":"de","extlangs":[],"script":null,"region":null,"variants":[],"extensions":[],"private":[]}\n' ''
python3 "$objects" "$program" "$sample" > told 2> err; ended=$?; cut -d ' ' -f 1-2 told > out
(exit "$ended"); is 'json: by hand, and made lines' 0 '20013 objects,\n' ''
head -c 17000000 /dev/zero | tr '\0' a | "$program" json "$sample" > long 2> err; ended=$?
head -c 11 long > out; wc -c < long >> out
(exit "$ended"); is 'json: a line that is cut' 1 '{"input":"a16777416\n' ''
rm long
"$program" json other < tags > out 2> err; is 'json: the registry is refused' 2 'jar BadLine line 1\n' ''
"$program" json "$sample" <&- > out 2> err; is 'json: closed input' 4 '' '! Read\n'
"$program" json - < tags > out 2> err; is 'json -: no such file' 4 '' '! File\n'
"$program" json "$sample" < empty > out 2> err; is 'json: no line' 0 '' ''
: > out
"$program" json "$sample" < tags > /dev/full 2> err; is 'json: full output' 4 '' '! Write\n'
"$program" json < tags > out 2> usage; ended=$?
head -c 7 usage > err
(exit "$ended"); is 'json: no registry' 3 '' 'error: '

# rows with tabs between their fields, by their second fields
printf '1\tzh-yue\tbook\r\n2\ten_US\n3\n' > rows
"$program" tsv "$sample" 2 < rows > out 2> err; is 'tsv refuses two' 1 '1\tyue\tbook\t\r\n2\ten_US\tBadByte 1\n3\tNoColumn\n' ''
printf '1\tDE' | "$program" tsv "$sample" 2 > out 2> err; is tsv 0 '1\tde\t\n' ''
"$program" tsv other 2 < rows > out 2> err; is 'tsv: the registry is refused' 2 'jar BadLine line 1\n' ''
: > out
"$program" tsv "$sample" 2 < rows > /dev/full 2> err; is 'tsv: full output' 4 '' '! Write\n'
"$program" tsv "$sample" 2 <&- > out 2> err; is 'tsv: closed input' 4 '' '! Read\n'
head -c 3000000 /dev/zero | tr '\0' 'a' > long
printf '\tde\n' >> long
"$program" tsv "$sample" 2 < long > out 2> err; ended=$?
tail -c 5 out > end; mv end out
(exit "$ended"); is 'tsv: a long row' 0 '\tde\t\n' ''
"$program" tsv --heading "$sample" 0 < rows > out 2> err; is 'tsv: the column 0' 3 '' "error: COLUMN is a number from 1, and not 0\n\nFor more information, try '--help'.\n"
"$program" tsv --heading "$sample" 18446744073709551616 < rows > out 2> err; is 'tsv: a column beyond 64 bits' 3 '' "error: COLUMN is at most 18446744073709551615, and not 18446744073709551616\n\nFor more information, try '--help'.\n"
"$program" tsv "$sample" two < rows > out 2> err; is 'tsv: a name without a heading' 3 '' "error: COLUMN two is a name: add --heading, or give a number from 1\n\nFor more information, try '--help'.\n"
"$program" tsv "$sample" -1 < rows > out 2> usage; ended=$?
head -n 1 usage > err
(exit "$ended"); is 'tsv: the column -1' 3 '' "error: unexpected argument '-1' found\n"

# headings of rows, and rows that are kept
printf 'id\tzh-yue\r\n' | cat - rows > headed
"$program" tsv --heading "$sample" 2 < headed > out 2> err; is 'tsv --heading' 1 'id\tzh-yue\tlangtag_fault\r\n1\tyue\tbook\t\r\n2\ten_US\tBadByte 1\n3\tNoColumn\n' ''
"$program" tsv "$sample" 2 --keep < rows > out 2> err; is 'tsv --keep' 1 '1\tzh-yue\tbook\tyue\t\r\n2\ten_US\t\tBadByte 1\n3\t\tNoColumn\n' ''
"$program" tsv --keep --heading "$sample" 2 < headed > out 2> err; is 'tsv --keep --heading' 1 'id\tzh-yue\tlangtag\tlangtag_fault\r\n1\tzh-yue\tbook\tyue\t\r\n2\ten_US\t\tBadByte 1\n3\t\tNoColumn\n' ''
dd bs=1 status=none < headed | "$program" tsv --keep --heading "$sample" 2 > out 2> err; is 'tsv: the same byte by byte' 1 'id\tzh-yue\tlangtag\tlangtag_fault\r\n1\tzh-yue\tbook\tyue\t\r\n2\ten_US\t\tBadByte 1\n3\t\tNoColumn\n' ''
printf 'id\ttag\n1\tDE\n' | "$program" tsv --keep --heading "$sample" 2 > out 2> err; is 'tsv --keep --heading: none is refused' 0 'id\ttag\tlangtag\tlangtag_fault\n1\tDE\tde\t\n' ''
for words in 'csv --heading' 'canon --keep' 'tsv --keep --keep' 'check --heading'; do
    # shellcheck disable=SC2086
    "$program" $words "$sample" 2 < rows > out 2> usage; ended=$?
    head -c 7 usage > err
    (exit "$ended"); is "$words" 3 '' 'error: '
done

# records of CSV, by their second fields
printf 'id,tag\r\n"a\n,b",zh-yue\r\n2,"en_US"\n3\n' > records
"$program" csv "$sample" 2 < records > out 2> err; is 'csv refuses two' 1 'id,tag,langtag_fault\r\n"a\n,b",yue,\r\n2,"en_US",BadByte 1\n3,NoColumn\n' ''
printf 'id,tag\n1,"DE"' | "$program" csv "$sample" 2 > out 2> err; is csv 0 'id,tag,langtag_fault\n1,"de",\n' ''
printf 'id,tag\n1,iw\n"2' | "$program" csv "$sample" 2 > out 2> err; is 'csv: an open quote' 4 'id,tag,langtag_fault\n1,he,\n' '! BadCsv line 3\n'
printf 'id,title,tag\n1,Abbey Road 12" LP,zh-yue\n2,Help! 7" EP,I-KLINGON\n3,"5"" d",iw\n' > inches
"$program" csv "$sample" 3 < inches > out 2> err; is 'csv: quotes in plain fields' 0 'id,title,tag,langtag_fault\n1,Abbey Road 12" LP,yue,\n2,Help! 7" EP,tlh,\n3,"5"" d",he,\n' ''
dd bs=1 status=none < inches | "$program" csv "$sample" 3 > out 2> err; is 'csv: the same byte by byte' 0 'id,title,tag,langtag_fault\n1,Abbey Road 12" LP,yue,\n2,Help! 7" EP,tlh,\n3,"5"" d",he,\n' ''
printf 'id,tag\n"a"b,iw\nx, "q,iw\n' | "$program" csv "$sample" 2 > out 2> err; is 'csv: text after a quote, and a space before one' 1 'id,tag,langtag_fault\n"a"b,he,\nx, "q,iw,BadByte 1\n' ''
printf 'id,tag\n1\rx,iw\n2,"a\rb"\r\n3,iw\r\r\n4,iw\r' | "$program" csv "$sample" 2 > out 2> err; is 'csv: a carriage return alone' 1 'id,tag,langtag_fault\n1\rx,iw,BadReturn\n2,"a\rb",BadByte 1\r\n3,iw\r,BadReturn\r\n4,he,\r\n' ''
printf 'id,tag\r1,iw\r2,iw\r' | "$program" csv "$sample" 2 > out 2> err; is 'csv: carriage returns alone' 1 'id,tag\r1,iw\r2,iw,BadReturn\r\n' ''
printf '\357\273\277"Title\n(German)",tag\nx,iw\n' > marked
"$program" csv "$sample" 2 < marked > out 2> err; is 'csv: a mark before the heading' 0 '\357\273\277"Title\n(German)",tag,langtag_fault\nx,he,\n' ''
dd bs=1 status=none < marked | "$program" csv "$sample" 2 > out 2> err; is 'csv: a mark, byte by byte' 0 '\357\273\277"Title\n(German)",tag,langtag_fault\nx,he,\n' ''
printf '\357\273\277iw\tx\n' | "$program" tsv "$sample" 1 > out 2> err; is 'tsv: a mark before the first row' 0 '\357\273\277he\tx\t\n' ''
printf '\357\273\277tag\tx\niw\t1\n' | "$program" tsv --heading "$sample" tag > out 2> err; is 'tsv --heading: a name after a mark' 0 '\357\273\277tag\tx\tlangtag_fault\nhe\t1\t\n' ''
printf '\357\273' | "$program" tsv "$sample" 2 > out 2> err; is 'tsv: a part of a mark' 1 '\357\273\tNoColumn\n' ''
for order in LE BE; do
    { test $order = LE && printf '\377\376' || printf '\376\377'; printf 'id,tag\n1,iw\n' | iconv -t UTF-16$order; } > wide
    "$program" csv "$sample" 2 < wide > out 2> err; is "csv: UTF-16$order" 4 '' '! Utf16\n'
    "$program" tsv "$sample" 1 < wide > out 2> err; is "tsv: UTF-16$order" 4 '' '! Utf16\n'
    "$program" canon "$sample" < wide > out 2> err; ended=$?; head -n 1 out > first; mv first out
    (exit "$ended"); is "canon: UTF-16$order" 1 '! BadByte 1\n' ''
done
{ printf 'id,tag\n1,iw\n2,"'; head -c 17825792 /dev/zero | tr '\0' 'a'; } > long
(ulimit -v 60000; "$program" csv "$sample" 2) < long > out 2> err; is 'csv: a quote that is never closed, in 60 MB' 4 'id,tag,langtag_fault\n1,he,\n' '! BadCsv line 3\n'
{ printf 'a\tiw\nb\t'; head -c 17825792 /dev/zero | tr '\0' 'a'; printf '\nc\tiw\n'; } > long
(ulimit -v 60000; "$program" tsv "$sample" 2) < long > out 2> err; is 'tsv: a row that is too long, in 60 MB' 4 'a\the\t\n' '! BadTsv line 2\n'
{ printf 'h,tag\n'; head -c 16777213 /dev/zero | tr '\0' 'a'; printf ',iw\n'; head -c 16777214 /dev/zero | tr '\0' 'a'; printf ',iw\n'; } > long
"$program" csv "$sample" 2 < long > out 2> err; ended=$?
tail -c 5 out > end; mv end out
(exit "$ended"); is 'csv: the longest record' 4 ',he,\n' '! BadCsv line 3\n'
rm long
"$program" csv other 2 < records > out 2> err; is 'csv: the registry is refused' 2 'jar BadLine line 1\n' ''
: > out
"$program" csv "$sample" 2 < records > /dev/full 2> err; is 'csv: full output' 4 '' '! Write\n'
"$program" csv "$sample" 2 <&- > out 2> err; is 'csv: closed input' 4 '' '! Read\n'
"$program" csv missing 0 < records > out 2> err; is 'csv: the column 0' 3 '' "error: COLUMN is a number from 1, and not 0\n\nFor more information, try '--help'.\n"

# records that are kept
"$program" csv --keep "$sample" 2 < records > out 2> err; is 'csv --keep' 1 'id,tag,langtag,langtag_fault\r\n"a\n,b",zh-yue,yue,\r\n2,"en_US",,BadByte 1\n3,,NoColumn\n' ''
"$program" csv "$sample" 2 --keep < marked > out 2> err; is 'csv --keep: a mark before the heading' 0 '\357\273\277"Title\n(German)",tag,langtag,langtag_fault\nx,iw,he,\n' ''
printf 'id,tag\n1\rx,iw\n2,"iw"\n"3' | "$program" csv --keep "$sample" 2 > out 2> err; is 'csv --keep: an open quote' 4 'id,tag,langtag,langtag_fault\n1\rx,iw,,BadReturn\n2,"iw",he,\n' '! BadCsv line 4\n'

# columns by their names in the heading
"$program" csv "$sample" tag < records > out 2> err; is 'csv: a name' 1 'id,tag,langtag_fault\r\n"a\n,b",yue,\r\n2,"en_US",BadByte 1\n3,NoColumn\n' ''
dd bs=1 status=none < records | "$program" csv "$sample" tag > out 2> err; is 'csv: a name, byte by byte' 1 'id,tag,langtag_fault\r\n"a\n,b",yue,\r\n2,"en_US",BadByte 1\n3,NoColumn\n' ''
"$program" csv --keep "$sample" tag < marked > out 2> err; is 'csv --keep: a name after a mark' 0 '\357\273\277"Title\n(German)",tag,langtag,langtag_fault\nx,iw,he,\n' ''
printf '\357\273\277tag,"say ""tag""",tag\nde,iw,x\n' > twice
"$program" csv "$sample" 'say "tag"' < twice > out 2> err; is 'csv: a name with quotes' 0 '\357\273\277tag,"say ""tag""",tag,langtag_fault\nde,he,x,\n' ''
"$program" csv "$sample" tag < twice > out 2> err; is 'csv: a name that stands twice' 3 '' 'error: more than one column has the name "tag"; names: "tag" "say \\x22tag\\x22" "tag"\n'
"$program" csv "$sample" Tag < records > out 2> err; is 'csv: a name that is missing' 3 '' 'error: no column has the name "Tag"; names: "id" "tag"\n'
printf 'Gr\303\266\303\237e\033,tag\n' | "$program" csv "$sample" x > out 2> err; is 'csv: names as they are told' 3 '' 'error: no column has the name "x"; names: "Gr\\xc3\\xb6\\xc3\\x9fe\\x1b" "tag"\n'
"$program" csv "$sample" tag < empty > out 2> err; is 'csv: a name in no row' 3 '' 'error: no column has the name "tag"; names:\n'
printf 'id,"tag' | "$program" csv "$sample" tag > out 2> err; is 'csv: a heading in an open quote' 4 '' '! BadCsv line 1\n'
printf '\377\376i\0' | "$program" csv "$sample" tag > out 2> err; is 'csv: a name in UTF-16' 4 '' '! Utf16\n'
"$program" csv "$sample" tag < . > out 2> err; is 'csv: a heading that fails' 4 '' '! Read\n'
"$program" csv other tag < records > out 2> err; is 'csv: a name, and the registry is refused' 2 'jar BadLine line 1\n' ''
head -c 16777217 /dev/zero | "$program" csv "$sample" tag > out 2> err; is 'csv: a heading that is too long' 4 '' '! BadCsv line 1\n'
head -c 16777217 /dev/zero | "$program" tsv --heading "$sample" tag > out 2> err; is 'tsv: a heading that is too long' 4 '' '! BadTsv line 1\n'
printf 'tag;id\nIW;1\n' | "$program" csv --delimiter ';' "$sample" tag > out 2> err; is 'csv: a name, and semicolons' 0 'tag;id;langtag_fault\nhe;1;\n' ''
printf 'id\t"tag\r\n1\tIW\r\n' | "$program" tsv --heading "$sample" '"tag' > out 2> err; is 'tsv: a name' 0 'id\t"tag\tlangtag_fault\r\n1\the\t\r\n' ''
: > out
"$program" csv "$sample" tag < records > /dev/full 2> err; is 'csv: a name, and full output' 4 '' '! Write\n'

# another byte between the fields, in either place, and words that are refused
printf 'id;tag\r\n"a;b";zh-yue\r\n1,5;"en_US"\n3\n' > semicolons
"$program" csv "$sample" 2 --delimiter ';' < semicolons > out 2> err; is 'csv: semicolons' 1 'id;tag;langtag_fault\r\n"a;b";yue;\r\n1,5;"en_US";BadByte 1\n3;NoColumn\n' ''
printf 'id\ttag\n"a\tb"\tDE\n' > tabbed
"$program" csv --delimiter=tab "$sample" 2 < tabbed > out 2> err; is 'csv: tabs by name' 0 'id\ttag\tlangtag_fault\n"a\tb"\tde\t\n' ''
"$program" csv --delimiter $'\t' "$sample" 2 < tabbed > out 2> err; is 'csv: tabs' 0 'id\ttag\tlangtag_fault\n"a\tb"\tde\t\n' ''
for delimiter in '' '"' $'\n' $'\r' ';;' ä Tab ' ' - _ 7 t Z; do
    "$program" csv "--delimiter=$delimiter" "$sample" 2 < tabbed > out 2> err; is "csv: the delimiter $delimiter" 3 '' "error: the delimiter is the word tab, or one byte of ASCII but no letter,\ndigit, space, hyphen, underscore, quote, carriage return or line feed\n\nFor more information, try '--help'.\n"
done
for words in 'csv --delimiter' 'tsv --delimiter ;' 'csv --delimiter ; --delimiter ,' 'check --summary'; do
    # shellcheck disable=SC2086
    "$program" $words "$sample" 2 < tabbed > out 2> usage; ended=$?
    head -c 7 usage > err
    (exit "$ended"); is "$words" 3 '' 'error: '
done

# the registry from the standard input, where that isn't read otherwise
"$program" check - < "$sample" > out 2> err; is 'check -' 0 'ok 46\n' ''
cat "$sample" | "$program" check - > out 2> err; is 'check -, from a pipe' 0 'ok 46\n' ''
"$program" extlang - cmn-hans < "$sample" > out 2> err; is 'extlang -' 0 'zh-cmn-Hans\n' ''
"$program" equal - YUE zh-yue < "$sample" > out 2> err; is 'equal -' 0 'equal\n' ''
"$program" explain - sgn-dd < "$sample" > out 2> err; is 'explain -' 0 'Region 2 27 sgn-DE\nWhole 1 44 gsg\n= gsg\n' ''
"$program" upgrade old - < new > out 2> err; is 'upgrade old -' 2 'upgrade U1 record 3\n' ''
"$program" upgrade - old < new > out 2> err; is 'upgrade - old' 0 'ok\n' ''
"$program" canon - < lines > out 2> err; is 'canon -: no such file' 4 '' '! File\n'
"$program" check - <&- > out 2> err; is 'check -: closed input' 4 '' '! File\n'

# a line is answered before the next is there, and signals that end no program end no read
mkfifo to from
"$program" canon "$sample" < to > from 2> err &
exec 3> to 4< from
echo zh-yue >&3
read -r -t 10 line <&4
for signal in STOP WINCH CONT URG; do kill -$signal $!; done
echo DE >&3
read -r -t 10 other_line <&4
exec 3>&-
wait $!
ended=$?
exec 4<&-
printf '%s\n%s\n' "$line" "$other_line" > out
(exit "$ended"); is 'canon answers at once' 0 'yue\nde\n' ''

# files that are not there, or can't be read
run check missing; is 'check: no file' 4 '' '! File\n'
run canon missing; is 'canon: no file' 4 '' '! File\n'
run upgrade missing new; is 'upgrade: no first file' 4 '' '! File\n'
run upgrade new missing; is 'upgrade: no second file' 4 '' '! File\n'
run check .; is 'check: a folder' 4 'jar Read line 1\n' ''

# streams that are closed or full
"$program" canon "$sample" <&- > out 2> err; is 'closed input' 4 '' '! Read\n'
"$program" check "$sample" <&- > out 2> err; is 'closed input that is not read' 0 'ok 46\n' ''
"$program" canon "$sample" < . > out 2> err; is 'an input that fails' 4 '' '! Read\n'
: > out
"$program" canon "$sample" < lines >&- 2> err; is 'closed output' 4 '' '! Write\n'
"$program" canon "$sample" < lines > /dev/full 2> err; is 'full output' 4 '' '! Write\n'
"$program" check "$sample" < empty > /dev/full 2> err; is 'full output of check' 4 '' '! Write\n'
"$program" --help < empty > /dev/full 2> err; is 'full output of help' 4 '' '! Write\n'
: > err
"$program" check missing < empty > out 2> /dev/full; is 'full errors' 4 '' ''
"$program" canon "$sample" < lines > out 2>&-; is 'closed errors' 0 'yue\nde\n' ''

# words
"$program" --help < empty > help 2> err; ended=$?
grep '^Usage: ' help > out
(exit "$ended"); is help 0 'Usage: langtag <COMMAND>\n' ''
sed -n '/^Status:/,$p' help > out
(exit "$ended"); is 'help: the statuses' 0 'Status:\n  0  all was done\n  1  a tag was refused, two tags are different, steps are wrong,\n     or no line was printed\n  2  a registry, a table or an upgrade was refused\n  3  the command line is wrong\n  4  a file, the input, the output or memory failed\n\nlangtag help COMMAND says more of a command.\nThe manual, man langtag, has all of it.\n' ''
"$program" --version < empty > version 2> err; ended=$?
cut -d '(' -f 1 version > out
(exit "$ended"); is version 0 "langtag $number \n" ''
"$program" -V < empty > out 2> err; is 'version, short' 0 "$(cat version)\n" ''
"$program" upgrade old < empty > out 2> usage; ended=$?
head -c 7 usage > err
(exit "$ended"); is usage 3 '' 'error: '
"$program" classify $'\xff' < empty > out 2> err; is 'a word that is not UTF-8' 3 '' "error: argument 2 is not UTF-8: \\\\xff\n\nFor more information, try '--help'.\n"
"$program" $'\xe4 \\\e' < empty > out 2> err; is 'a command that is not UTF-8' 3 '' "error: argument 1 is not UTF-8: \\\\xe4 \\\\x5c\\\\x1b\n\nFor more information, try '--help'.\n"
long=$(head -c 100000 /dev/zero | tr '\0' a)
"$program" classify "$long" < empty > out 2> err; is 'a long word' 1 '! TooLong 0\n' ''

# what a person is told where the standard error is a terminal, and nothing of it where it is none
# on_terminal WORD..: runs the program with a terminal of its own as its standard error, which is written to `told`.
on_terminal() {
    python3 - "$program" "$@" << 'END'
import os, pty, subprocess, sys
own, theirs = pty.openpty()
with open("input", "rb") as given, open("out", "wb") as out:
    run = subprocess.Popen(sys.argv[1:], stdin=given, stdout=out, stderr=theirs)
    os.close(theirs)
    told = b""
    while True:
        try:
            more = os.read(own, 65536)
        except OSError:
            break
        if not more:
            break
        told += more
with open("err", "wb") as err:
    err.write(told.replace(b"\r\n", b"\n"))
sys.exit(run.wait())
END
}
faults() { printf '%s' "1 UnknownLanguage, first in $1 2: xx\n  The registry lacks the language: correct it (en for eng or English), or get\n  a newer registry.\n1 BadByte, first in $1 3: en_US\n  A byte that is no ASCII letter, digit or hyphen: write zh-Hant for zh_Hant;\n  remove quotes, spaces, a byte order mark.\n"; }
of_lines=$(faults line)
of_records=$(faults record)
printf 'zh-yue\nxx\nen_US\n' > input
on_terminal canon "$sample"; is 'canon at a terminal' 1 'yue\n! UnknownLanguage 1\n! BadByte 1\n' "3 lines, 2 refused\n$of_lines"
"$program" canon "$sample" < input > out 2> err; is 'canon at no terminal' 1 'yue\n! UnknownLanguage 1\n! BadByte 1\n' ''
on_terminal canon --summary "$sample"; is 'canon --summary at a terminal' 1 'yue\n! UnknownLanguage 1\n! BadByte 1\n' "3 lines, 2 refused\n$of_lines"
"$program" canon "$sample" --summary < input > out 2> err; is 'canon --summary' 1 'yue\n! UnknownLanguage 1\n! BadByte 1\n' "3 lines, 2 refused\n$of_lines"
"$program" tsv --summary "$sample" 1 < input > out 2> err; is 'tsv --summary' 1 'yue\t\nxx\tUnknownLanguage 1\nen_US\tBadByte 1\n' "3 lines, 2 refused\n$of_lines"
"$program" csv --summary --delimiter ';' "$sample" 1 < input > out 2> err; is 'csv --summary' 1 'zh-yue;langtag_fault\nxx;UnknownLanguage 1\nen_US;BadByte 1\n' "3 records, 2 refused\n$of_records"
: > out
"$program" canon --summary "$sample" < input > /dev/full 2> err; is 'canon --summary: full output' 4 '' "! Write\nWrite: The output can't be written: see whether it is closed, or the disk is\nfull.\n"
"$program" canon --summary missing < input > out 2> err; ended=$?; sed -n '1p; 4p' err > told; mv told err
(exit "$ended"); is 'canon --summary: no file' 4 '' '! File\nmissing: No such file or directory (os error 2)\n'
on_terminal tsv "$sample" 1; is 'tsv at a terminal' 1 'yue\t\nxx\tUnknownLanguage 1\nen_US\tBadByte 1\n' "3 lines, 2 refused\n$of_lines"
on_terminal csv "$sample" 1; is 'csv at a terminal' 1 'zh-yue,langtag_fault\nxx,UnknownLanguage 1\nen_US,BadByte 1\n' "3 records, 2 refused\n$of_records"
printf 'id,note,tag\n1,"see, File\nmore Read",zh-yue\n' > input
on_terminal csv "$sample" 3; is 'csv at a terminal: words that look like faults' 0 'id,note,tag,langtag_fault\n1,"see, File\nmore Read",yue,\n' '2 records, 0 refused\n'
printf 'x File y\n' > input
on_terminal json "$sample"; is 'json at a terminal: words that look like faults' 1 '{"input":"x File y","bytes":null,"canonical":null,"fault":"BadByte","place":1,"variant":null,"class":null,"language":null,"extlangs":[],"script":null,"region":null,"variants":[],"extensions":[],"private":[]}\n' ''
printf 'id,my File here\n' > input
on_terminal csv "$sample" tag; is 'csv at a terminal: names that look like faults' 3 '' 'error: no column has the name "tag"; names: "id" "my File here"\n'
sed 's/^Description: Chinese$/Description: a File here/' described > named
on_terminal show --json named zh File; ended=$?; grep -c 'a File here' out > told; mv told out
(exit "$ended"); is 'show --json at a terminal: words that look like faults' 1 '1\n' ''
printf 'zh-yue\n' > input
on_terminal canon "$sample"; is 'canon at a terminal: one line' 0 'yue\n' '1 line, 0 refused\n'
yes en | head -n 2500000 > input
on_terminal canon "$sample"; ended=$?; tr '\r' '\n' < err | sed 's/[0-9],[0-9]\{3\} lines$/.,... lines/' > told; mv told err; cmp -s input out && : > out
(exit "$ended"); is 'a long run at a terminal' 0 '' '1,00.,... lines\n2,00.,... lines\n2,500,000 lines, 0 refused\n'
{ head -c 3000000 /dev/zero | tr '\0' a; printf '\tzh-yue\n\tIW\n'; } > input
on_terminal tsv "$sample" 2; ended=$?; { head -c 3000000 /dev/zero | tr '\0' a; printf '\tyue\t\n\the\t\n'; } | cmp -s - out && : > out
(exit "$ended"); is 'a long row at a terminal' 0 '' '2 lines, 0 refused\n'
on_terminal check "$sample"; is 'check at a terminal' 0 'ok 46\n' ''
on_terminal classify xx-; ended=$?; head -n 1 err | cut -c1-12 > told; mv told err
(exit "$ended"); is 'classify at a terminal' 1 '! EmptySubtag 2\n' 'EmptySubtag:\n'
printf 'File-Date: 2024-01-01\n%%%%\nType: region\nSubtag: BU\nPreferred-Value: MM\n' > refused
on_terminal check refused; ended=$?; sed -n '1p; $p' err | cut -c1-28 > told; mv told err
(exit "$ended"); is 'check at a terminal: a record' 2 'check C2 record 2\n' 'C2: The value of a language,\nrecord 2: region BU, line 3\n'
mkfifo pipe; cat refused > pipe &
on_terminal check pipe; ended=$?; sed -n '1p; $p' err | cut -c1-28 > told; mv told err
(exit "$ended"); is 'check at a terminal: a record that came through a pipe' 2 'check C2 record 2\n' 'C2: The value of a language,\nThe file is pipe.\n'
on_terminal upgrade old new; ended=$?; tail -n 1 err > told; mv told err
(exit "$ended"); is 'upgrade at a terminal: a record' 2 'upgrade U1 record 3\n' 'record 3: language fr, line 6\n'
on_terminal check missing; ended=$?; sed -n '1p; 4p' err > told; mv told err
(exit "$ended"); is 'check at a terminal: no file' 4 '' '! File\nmissing: No such file or directory (os error 2)\n'
on_terminal --help; ended=$?; : > out
(exit "$ended"); is 'help at a terminal' 0 '' ''

echo "$passed passed, $failed failed"
[ "$failed" = 0 ]
