#!/usr/bin/env bash
# Compares status, output and errors of the program with the table of statuses in docs/formats/command-line.md.
#
#     tools/check statuses             runs the program that `./run --proved` makes
#     tools/check statuses PROGRAM     runs one that was made before
#
# Each row of the table is a run. Want of memory has a check of its own, `allocations`. It takes a second.
set -euo pipefail
here=$(cd "$(dirname "$0")/../../.." && pwd)
work=$(mktemp -d)
trap 'rm -rf "$work"' EXIT
rows=0

# the bundle of a Dockerfile of FROM scratch and this line
bundle() {
    printf '{"dockerfile":{"text":"FROM scratch\\n%s\\n"}}' "$1" >"$work/in"
}

# row NAME STATUS OUT ERR WORD..: one run on the bundle, with these words; OUT and ERR are what is printed, or * for anything but nothing
row() {
    name=$1 want=$2 out=$3 err=$4
    shift 4
    status=0
    "$program" "$@" <"$work/in" >"$work/out" 2>"$work/err" || status=$?
    judge "$name"
}

# fails unless the run's status and what it printed are those that are wanted
judge() {
    if [ "$status" != "$want" ] || ! is_printed "$out" "$work/out" || ! is_printed "$err" "$work/err"; then
        echo "$1: status $status in place of $want, and printed:" >&2
        cat "$work/out" "$work/err" >&2
        exit 1
    fi
    rows=$((rows + 1))
}

# is_printed TEXT FILE: whether the file holds the text as a line; nothing where the text is empty, and something where it is *
is_printed() {
    case $1 in
    '') [ ! -s "$2" ] ;;
    '*') [ -s "$2" ] ;;
    *) printf '%s\n' "$1" | cmp -s - "$2" ;;
    esac
}

if [ $# -gt 0 ]; then
    program=$(realpath "$1")
else
    "$here/run" --proved build <"$here/examples/first.json" >/dev/null    # proves and builds the program where that is needed
    program=$here/crates/dfsolve/out/proved/dfsolve
fi

config='{"architecture":"amd64","config":{},"os":"linux","rootfs":{"diff_ids":[],"type":"layers"}}'
root='{"dir":true,"gid":0,"mode":"0755","path":"/","uid":0}'
file='{"gid":0,"hex":"6869","mode":"0644","path":"/a","uid":0}'

bundle 'RUN put /a hi'
built='{"config":'$config',"result":"built","tree":['$root,$file']}'
row 'built' 0 "$built" '' build
row 'built by one worker' 0 "$built" '' build --workers 1
graph='{"ops":[{"inputs":[],"op":"source","places":[1],"source":"scratch"},{"binds":[],"caches":[],"dir":"/","env":[],"inputs":["sha256:76552e79413bf55d0c5d1deb6d66827a826db17e8dac7a4d75392760fd22987b"],"op":"exec","places":[2],"user":"","words":["/bin/sh","-c","put /a hi"]},{"inputs":["sha256:64900545bdba95a5dd127c7fa202375bbae70f2fb126a69abb15707c76b3b732"],"op":"end"}],"version":2}'
row 'a graph' 0 "$graph" '' graph
cp "$work/in" "$work/bundle.json"
: >"$work/in"
row 'built, from a file' 0 "$built" '' build "$work/bundle.json"
row 'built by one worker, from a file' 0 "$built" '' build --workers 1 "$work/bundle.json"
row 'a graph of a file' 0 "$graph" '' graph "$work/bundle.json"
dot=$'digraph dfsolve {\n  graph [fontname="monospace" fontsize=10];\n  node [fontname="monospace" fontsize=10];\n  edge [fontname="monospace" fontsize=10];\n  v0 [label="scratch\\lline 1\\l" shape=ellipse];\n  v1 [label="[1/1] RUN put /a hi\\lline 2\\l" shape=box peripheries=2];\n  v0 -> v1;\n}'
row 'a graph of a file for Graphviz' 0 "$dot" '' graph --dot "$work/bundle.json"
row 'a graph for Graphviz of a file that does not exist' 3 '' "device failed: $work/missing does not exist" graph --dot "$work/missing"
row 'a file that does not exist' 3 '' "device failed: $work/missing does not exist" build "$work/missing"
row 'a graph of a file that does not exist' 3 '' "device failed: $work/missing does not exist" graph "$work/missing"
row 'two files' 2 '' '*' build "$work/bundle.json" "$work/bundle.json"
bundle 'RUN put /a hi'
row 'a graph for Graphviz' 0 "$dot" '' graph --dot
row 'a graph with workers' 2 '' '*' graph --workers 1
row 'help of graph' 2 '*' '' graph --help
row 'built by 64 workers' 0 "$built" '' build --workers 64
row '65 workers' 2 '' '*' build --workers 65
row 'an unknown word' 2 '' '*' build --colour
row 'an unknown command' 2 '' '*' destroy
row 'no command' 2 '' '*'
row 'a word that is no UTF-8' 2 '' '*' build $'\xff'
row 'help' 2 '*' '' --help
row 'help of build' 2 '*' '' build --help
row 'the version' 2 'dfsolve 0.1.0' '' --version

bundle 'RUN fail 7'
row 'failed' 1 '{"cause":"exit 7","line":2,"result":"failed"}' '' build
row 'a graph of a build that fails' 0 '*' '' graph
row 'a graph of a build that fails, for Graphviz' 0 '*' '' graph --dot

bundle 'COPY a'
row 'refused' 2 '{"code":"R06","line":2,"result":"refused"}' '' build
row 'a refused graph' 2 '{"code":"R06","line":2,"result":"refused"}' '' graph
row 'a refused graph for Graphviz' 2 '{"code":"R06","line":2,"result":"refused"}' '' graph --dot
: >"$work/in"
row 'an empty bundle' 2 '{"code":"R20","line":0,"result":"refused"}' '' build

# faults, for a person to read
none=$'bundle: R20: the input is no bundle: not JSON\n     | make it by dfsolve pack, or see what a bundle is in docs/FORMATS.md'
row 'the fault of an empty bundle' 1 "$none" '' check
row 'no fault in a file' 0 '' '' check "$work/bundle.json"
row 'the faults of a file that does not exist' 3 '' "device failed: $work/missing does not exist" check "$work/missing"
row 'the faults of two files' 2 '' '*' check "$work/bundle.json" "$work/bundle.json"
row 'help of check' 2 '*' '' check --help
bundle 'RUN put /a hi'
row 'no fault' 0 '' '' check
bundle 'RUN fail 7'
row 'no fault in a build that fails' 0 '' '' check
bundle 'COPY a'
fault=$'Dockerfile:2: R06: COPY takes one source or more and a destination, none of them empty\n    2 | COPY a\n      | write COPY source destination, and give each variable in it a value'
row 'a fault' 1 "$fault" '' check

# a failure, for a person to read
bundle 'RUN put /a hi'
row 'nothing to explain' 0 '' '' explain
row 'nothing to explain in a file' 0 '' '' explain "$work/bundle.json"
row 'an explanation of a file that does not exist' 3 '' "device failed: $work/missing does not exist" explain "$work/missing"
row 'an explanation of two files' 2 '' '*' explain "$work/bundle.json" "$work/bundle.json"
row 'help of explain' 2 '*' '' explain --help
bundle 'RUN fail 7'
row 'an explanation of a command' 1 $'Dockerfile:2: exit 7: the command ended with status 7\n    2 | RUN fail 7\n      | see the command' '' explain
bundle 'COPY nope /d'
row 'an explanation of a source' 1 $'Dockerfile:2: F1: a source isn\'t there: nope\n    2 | COPY nope /d\n      | name a file that the context, the stage or the image has' '' explain
printf '%s' '{"context":[{"path":"/.dockerignore","text":"# logs\n*.log\n"},{"path":"/a","text":""},{"path":"/a.log","text":""}],"dockerfile":{"text":"FROM scratch\nCOPY a a.log /d/\n"}}' >"$work/in"
row 'an explanation of a source that is left out' 1 $'Dockerfile:2: F1: a source isn\'t there: a.log\n    2 | COPY a a.log /d/\n      | .dockerignore:2 leaves it out: *.log' '' explain
printf '%s' '{"dockerfile":{"text":"FROM scratch AS a\nFROM scratch\nCOPY --from=a x* /d/\n"}}' >"$work/in"
row 'an explanation of the one source of a stage' 1 $'Dockerfile:3: F1: a source isn\'t there: x*\n    3 | COPY --from=a x* /d/\n      | name a file that the context, the stage or the image has' '' explain
printf '%s' '{"dockerfile":{"text":"FROM scratch AS a\nFROM scratch\nCOPY --from=a x y /d/\n"}}' >"$work/in"
row 'an explanation of one source of two of a stage' 1 $'Dockerfile:3: F1: a source isn\'t there\n    3 | COPY --from=a x y /d/\n      | name a file that the context, the stage or the image has' '' explain
bundle 'COPY a'
row 'an explanation of a refusal' 2 "$fault" '' explain

# what BuildKit can't be told
left='{"context":[{"path":"/.dockerignore","text":"é"},{"path":"/é","text":""}],"dockerfile":{"text":"FROM scratch\nCOPY . /\n"}}'
printf '%s' "$left" >"$work/in"
row 'a path that is left out and is not ASCII' 3 '' "a path that the ignore file leaves out isn't printable ASCII" llb --unique u
printf '%s' "${left/COPY . \//WORKDIR \/a}" >"$work/in"
row 'the same where nothing is copied' 0 '*' '' llb --unique u

# folders: what is printed of the example is the bundle that a case of `tables` builds
packed=$(sed -n 's/^example_folder_packed | dfsolve build | //p' "$here/crates/tables/stdin")
row 'a packed folder' 0 "$packed" '' pack "$here/examples/folder"
ln -s "$here/examples/folder" "$work/by_link"
row 'a folder that is given by a link' 0 "$packed" '' pack "$work/by_link"
row 'a folder without a Dockerfile' 2 '' "no Dockerfile: $here/docs; --file names another" pack "$here/docs"
row 'no such folder' 2 '' "no Dockerfile: $work/missing does not exist: name another folder" pack "$work/missing"
row 'a file in place of a folder' 2 '' "no Dockerfile: $work/in is no folder: name one" pack "$work/in"
mkdir "$work/contained"
: >"$work/contained/Containerfile"
row 'a folder with a Containerfile' 2 '' "no Dockerfile: $work/contained has a Containerfile; --file $work/contained/Containerfile takes it" pack "$work/contained"
row 'pack without a folder' 2 '' '*' pack
row 'two folders' 2 '' '*' pack "$work" "$work"
row 'help of pack' 2 '*' '' pack --help
mkdir "$work/far"
ln -s "$here/examples/folder/Dockerfile" "$work/far/Dockerfile"
row 'a Dockerfile that is a link' 2 '' "no Dockerfile: $work/far/Dockerfile is no plain file; --file names another" pack "$work/far"

# what is given with options, and where the bundle goes
given='{"args":{"v":"1=2"},'${packed#\{}
row 'a packed folder with a target and a build argument' 0 "${given%\}},\"target\":\"s\"}" '' pack "$here/examples/folder" --target s --build-arg v=1=2
row 'a build argument without a sign of equality' 2 '' '*' pack "$here/examples/folder" --build-arg v
row 'a Dockerfile that is named' 0 "$packed" '' pack "$here/examples/folder" --file "$here/examples/folder/Dockerfile"
row 'a Dockerfile that is named by a link' 0 "$packed" '' pack "$here/examples/folder" --file "$work/far/Dockerfile"
row 'a Dockerfile that is named and missing' 2 '' "no Dockerfile: $work/missing does not exist, or is a link that leads to nothing: name what exists" pack "$here/examples/folder" --file "$work/missing"
image='{"config":'$config',"tree":['$file']}'
printf '%s' "$image" >"$work/image.json"
printf '%s' "$config" >"$work/config.json"
context=${packed%%,\"dockerfile\"*} dockerfile=',"dockerfile"'${packed#*,\"dockerfile\"}
images=',"images":{"a":{"config":'$config',"tree":[]},"b":'$image'}}'
row 'a packed folder with images' 0 "$context${dockerfile%\}}$images" '' pack "$here/examples/folder" --image b="$work/image.json" --image a="$work/config.json"
row 'an image without a sign of equality' 2 '' '*' pack "$here/examples/folder" --image b
row 'an image that is missing' 3 '' "cannot pack: $work/missing does not exist, or is a link that leads to nothing: name what exists" pack "$here/examples/folder" --image a="$work/missing"
printf "{" >"$work/broken"
row 'an image that is no image' 3 '' "cannot pack: $work/broken is no JSON: put the JSON of an image or of its configuration in it" pack "$here/examples/folder" --image a="$work/broken"
mkdir -p "$work/layout/blobs/sha256"
row 'an image of a folder that is no layout' 3 '' "cannot pack: $work/layout is a folder without index.json: name the folder of an image's layout, or a file" pack "$here/examples/folder" --image a="$work/layout"
blob() {
    printf '%s' "$1" >"$work/blob"
    digest=$(sha256sum <"$work/blob")
    digest=${digest%% *}
    mv "$work/blob" "$work/layout/blobs/sha256/$digest"
}
blob "$config"
blob '{"config":{"digest":"sha256:'"$digest"'"},"layers":[]}'
printf '{"manifests":[{"digest":"sha256:%s"}]}' "$digest" >"$work/layout/index.json"
ln -s layout "$work/layout.link"
row 'an image of a layout, by a link' 0 "$context${dockerfile%\}},\"images\":{\"a\":{\"config\":$config,\"digest\":\"sha256:$digest\",\"tree\":[]}}}" '' pack "$here/examples/folder" --image a="$work/layout.link"
rm "$work/layout/blobs/sha256/$digest"
row 'an image of a layout without its manifest' 3 '' "cannot pack: $work/layout/blobs/sha256/$digest does not exist, or is a link that leads to nothing: name what exists" pack "$here/examples/folder" --image a="$work/layout"
mkfifo "$work/image.pipe"
row 'an image that is a pipe' 3 '' "cannot pack: $work/image.pipe is neither a file nor a folder: name the file of an image, or the folder of its layout" pack "$here/examples/folder" --image a="$work/image.pipe"
truncate -s 67108865 "$work/large"
row 'an image that is too large' 3 '' "cannot pack: $work/large has more than 67,108,864 bytes, which no bundle may have: leave some of its files out" pack "$here/examples/folder" --image a="$work/large"
printf '%s' "$image" >"$work/kept"
row 'an image that is missing, for a bundle in a file' 3 '' '*' pack "$here/examples/folder" --image a="$work/missing" --output "$work/kept"
if [ "$(cat "$work/kept")" != "$image" ]; then
    echo 'a bundle that was not packed changed a file' >&2
    exit 1
fi
row 'a bundle for a file' 0 '' '' pack "$here/examples/folder" --output "$work/bundle"
want=0 out="$packed" err='' status=0
cp "$work/bundle" "$work/out"
judge 'a bundle in a file'
row 'a bundle for a file that cannot be made' 3 '' "device failed: $work/missing/bundle.part lies in a folder that does not exist: make that folder" pack "$here/examples/folder" --output "$work/missing/bundle"
row 'a bundle for a folder' 3 '' "device failed: $work/far is a folder: name a file" pack "$here/examples/folder" --output "$work/far"
row 'a bundle over a file' 0 '' '' pack "$here/examples/folder" --output "$work/kept"
want=0 out="$packed" err='' status=0
cp "$work/kept" "$work/out"
judge 'a bundle in place of a file'
printf 'old' >"$work/old"
ln -s old "$work/link"
row 'a bundle through a link' 0 '' '' pack "$here/examples/folder" --output "$work/link"
want=0 out="$packed" err='' status=0
cp "$work/old" "$work/out"
judge 'a bundle where a link leads'
if [ ! -L "$work/link" ]; then
    echo 'a bundle was put in place of a link' >&2
    exit 1
fi
printf 'old' >"$work/old"
: >"$work/old.part"
row 'a bundle beside the part of another' 3 '' "device failed: $work/old.part is there already: remove it" pack "$here/examples/folder" --output "$work/old"
rm "$work/old.part"
want=3 out='' err="device failed: $work/old.part cannot be written: see whether there is room for it" status=0
: >"$work/out"
# what is said goes through a pipe, since no file takes a byte there
(trap '' XFSZ && ulimit -f 0 && exec "$program" pack "$here/examples/folder" --output "$work/old") 2>&1 >/dev/null | cat >"$work/err" || status=$?
judge 'a bundle that is larger than a file may be'
if [ "$(cat "$work/old")" != old ] || [ -e "$work/old.part" ]; then
    echo 'a bundle that was not written changed a file, or leaves a part' >&2
    exit 1
fi
if [ -c /dev/full ]; then
    row 'a bundle for a full device' 3 '' 'device failed: /dev/full cannot be written: see whether there is room for it' pack "$here/examples/folder" --output /dev/full
fi
if [ -e "$work/far.part" ] || [ -e "$work/bundle.part" ]; then
    echo 'a bundle that was not written leaves a file' >&2
    exit 1
fi

# folder NAME: a new folder of this name with a Dockerfile
folder() {
    mkdir "$work/$1"
    printf 'FROM scratch\n' >"$work/$1/Dockerfile"
}

folder linked
ln -s Dockerfile "$work/linked/link"
kept='leave it out by a line of .dockerignore and --apply-ignore, or'
row 'a link in a folder' 3 '' "cannot pack: $work/linked/link is a link: $kept put what it leads to in its place" pack "$work/linked"
folder piped
mkfifo "$work/piped/pipe"
row 'a pipe in a folder' 3 '' "cannot pack: $work/piped/pipe is neither a file nor a folder: $kept remove it" pack "$work/piped"
folder named
: >"$work/named/"$'\xff'
row 'a name that is no UTF-8' 3 '' "cannot pack: $work/named/\\xff has a name that is not UTF-8 or is too long: rename it" pack "$work/named"
mkdir "$work/named/d"
mv "$work/named/"$'\xff' "$work/named/d/a"$'\xc3\x1b'
row 'a name that is no UTF-8, in a folder' 3 '' "cannot pack: $work/named/d/a\\xc3\\x1b has a name that is not UTF-8 or is too long: rename it" pack "$work/named"
folder deep
far=$(printf '/d%.0s' $(seq 64))
mkdir -p "$work/deep$far"
status=0
"$program" pack "$work/deep" >"$work/out" 2>"$work/err" || status=$?
out='*' err='' want=0
judge 'a folder of 64 components'
mkdir "$work/deep$far/e"
row 'a folder of 65 components' 3 '' "cannot pack: $work/deep$far/e lies deeper than 64 components, or has too long a name: move or rename it" pack "$work/deep"

# what is left out isn't looked at beyond its name, or, where a line may be an exception, beyond what it is
folder ignoring
mkdir "$work/ignoring/n"
ln -s k "$work/ignoring/n/link"
printf 'n\n' >"$work/ignoring/.dockerignore"
row 'a link in a folder that is left out' 0 '*' '' pack "$work/ignoring" --apply-ignore
printf 'n\n!n/k\n' >"$work/ignoring/.dockerignore"
row 'a link in a folder that may hold an exception' 0 '*' '' pack "$work/ignoring" --apply-ignore
mkdir "$work/ignoring/m"
ln -s k "$work/ignoring/m/link"
: >"$work/ignoring/m/"$'\xff'
printf 'n\nm\n!n/k\n' >"$work/ignoring/.dockerignore"
row 'a folder that is left out beside one that may hold an exception' 0 '*' '' pack "$work/ignoring" --apply-ignore
rm -r "$work/ignoring/m"
printf '!n/link\n' >"$work/ignoring/.dockerignore"
row 'a link that is kept' 3 '' "cannot pack: $work/ignoring/n/link is a link: leave it out by a line of the ignore file, or put what it leads to in its place" pack "$work/ignoring" --apply-ignore
folder astray
printf 'x\n' >"$work/outside"
ln -s ../outside "$work/astray/.dockerignore"
row 'an ignore file that is a link' 3 '' "cannot pack: $work/astray/.dockerignore is a link: put the file that it leads to in its place" check "$work/astray"
row 'an ignore file that is a link, and paths' 3 '' "cannot pack: $work/astray/.dockerignore is a link: put the file that it leads to in its place" why --bundle "$work/astray" x
rm "$work/astray/.dockerignore"
cp "$work/astray/Dockerfile" "$work/astray/F"
ln -s ../outside "$work/astray/F.dockerignore"
row 'an own ignore file that is a link' 3 '' "cannot pack: $work/astray/F.dockerignore is no file: put a file in its place, or rename it" pack "$work/astray" --file "$work/astray/F" --apply-ignore

# a folder as the input of each command that reads a bundle: it answers what it does of the bundle that `pack` makes of the folder
folder app
printf 'FROM scratch AS one\nARG v\nCOPY kept /$v\nFROM base\nCOPY kept left /\n' >"$work/app/Dockerfile"
printf 'left\n' >"$work/app/.dockerignore"
printf 'hi' >"$work/app/kept"
ln -s kept "$work/app/left"
choice=(--image "base=$work/config.json")
row 'a folder is built' 1 '{"cause":"F1","line":5,"result":"failed"}' '' build "$work/app" "${choice[@]}"
row 'a stage of a folder is built with a build argument' 0 "$built" '' build "$work/app" "${choice[@]}" --target one --build-arg v=a --workers 1
row 'a failure of a folder is explained' 1 $'Dockerfile:5: F1: a source isn\'t there: left\n    5 | COPY kept left /\n      | .dockerignore:1 leaves it out: left' '' explain "$work/app" "${choice[@]}"
row 'a folder without a fault' 0 '' '' check "$work/app" "${choice[@]}"
row 'the configuration of a folder' 0 "$config" '' config "$work/app" "${choice[@]}"
row 'why paths of a folder are kept or left out' 0 '*' '' why --bundle "$work/app" "${choice[@]}" kept left
"$program" pack "$work/app" "${choice[@]}" --apply-ignore >"$work/in"
for words in build graph 'graph --dot' config check explain 'why kept left'; do
    of=("$work/app")
    if [ "${words%% *}" = why ]; then
        of=(--bundle "$work/app")
    fi
    status=0 out='*' err=''
    "$program" $words <"$work/in" >"$work/said" 2>&1 || status=$?
    want=$status status=0
    "$program" $words "${of[@]}" "${choice[@]}" </dev/null >"$work/out" 2>"$work/err" || status=$?
    if ! cmp -s "$work/said" "$work/out"; then
        echo "$words: not the same of a folder and of its bundle" >&2
        exit 1
    fi
    [ -s "$work/said" ] || out=''
    judge "$words of a folder and of its bundle"
done
# what the ignore file leaves out is named in a definition for BuildKit, which is given the folder itself
folder told
printf 'FROM scratch\nCOPY . /x\n' >"$work/told/Dockerfile"
printf 'left\n' >"$work/told/.dockerignore"
: >"$work/told/left"
"$program" pack "$work/told" --names | "$program" llb --unique u >"$work/said"
"$program" llb --unique u "$work/told" >"$work/out"
if ! cmp -s "$work/said" "$work/out" || ! grep -q '\["left"\]' "$work/said"; then
    echo 'a definition of a folder does not say what is left out' >&2
    exit 1
fi
printf 'FROM scratch\nRUN put /a hi\n' >"$work/named.Dockerfile"
row 'a Dockerfile that is named, of a folder' 0 "$built" '' build "$work/app" --file "$work/named.Dockerfile"

# what goes with a folder stands beside no other bundle
while read -r option value stands; do
    row "$option beside a file" 2 '' "error: $option goes with a folder; $stands" build "$work/bundle.json" "$option" "$value"
    row "$option beside standard input" 2 '' '*' check "$option" "$value"
    row "$option beside a file, of why" 2 '' "error: $option goes with a folder; $stands" why --bundle "$work/bundle.json" "$option" "$value" a
done <<'END'
--file f the Dockerfile of a bundle stands in it
--target t the target of a bundle stands in it
--build-arg v=1 the build arguments of a bundle stand in it
--image n=f the images of a bundle stand in it
END
row 'a target beside a file that does not exist' 3 '' "device failed: $work/missing does not exist" build "$work/missing" --target t

# folders that have no bundle
for words in build graph 'llb --unique u' config check explain; do
    row "$words of a folder without a Dockerfile" 2 '' "no Dockerfile: $here/docs; --file names another" $words "$here/docs"
    row "$words of a folder that does not exist" 3 '' "device failed: $work/missing does not exist" $words "$work/missing"
done
row 'an image of a folder that is missing' 3 '' "cannot pack: $work/missing does not exist, or is a link that leads to nothing: name what exists" check "$work/app" --image base="$work/missing"
row 'a link in a folder that is built' 3 '' "cannot pack: $work/linked/link is a link: leave it out by a line of the ignore file, or put what it leads to in its place" build "$work/linked"
row 'a pipe in a folder that is explained' 3 '' "cannot pack: $work/piped/pipe is neither a file nor a folder: leave it out by a line of the ignore file, or remove it" explain "$work/piped"
row 'a link in a folder that is checked' 0 '' "warning: passed over, since neither a file nor a folder: $work/linked/link" check "$work/linked"
folder big
truncate -s 41943040 "$work/big/f"
size=$(($("$program" pack "$work/big" | wc -c) - 1))
row 'a folder that is too large' 3 '' "cannot pack: $work/big: its bundle has $size bytes, and a bundle has at most 67108864: leave files out by a line of .dockerignore" build "$work/big"
row 'a folder that is too large, by names alone' 0 '' '' check "$work/big"

if [ "$(id -u)" != 0 ]; then
    folder secret
    : >"$work/secret/file"
    chmod 0 "$work/secret/file"
    folder shut
    chmod 0 "$work/shut"
    row 'a folder that may not be looked into' 3 '' "cannot pack: $work/shut/Dockerfile cannot be read: make it readable, or leave it out" pack "$work/shut"
    chmod 755 "$work/shut"
    row 'a bundle that may not be read' 3 '' "device failed: $work/secret/file may not be read" build "$work/secret/file"
    row 'a file that cannot be read' 3 '' "cannot pack: $work/secret/file cannot be read: make it readable, or leave it out" pack "$work/secret"
    printf 'file\n' >"$work/secret/.dockerignore"
    row 'a file that cannot be read and is left out' 0 '*' '' pack "$work/secret" --apply-ignore
    rm "$work/secret/.dockerignore"
    row 'a file that cannot be read, by names alone' 0 '*' '' pack "$work/secret" --names
fi

# a directory can't be read, and nothing can be written to a full device
bundle 'RUN put /a hi'
want=3 out='' err='device failed' status=0
"$program" build <"$work" >"$work/out" 2>"$work/err" || status=$?
judge 'a read that fails'
if [ -c /dev/full ]; then
    : >"$work/out"
    status=0
    "$program" build <"$work/in" >/dev/full 2>"$work/err" || status=$?
    judge 'a write that fails'
    status=0
    "$program" graph <"$work/in" >/dev/full 2>"$work/err" || status=$?
    judge 'a write of a graph that fails'
    status=0
    "$program" pack "$here/examples/folder" >/dev/full 2>"$work/err" || status=$?
    judge 'a write that fails, of a bundle'
    bundle 'COPY a'
    status=0
    "$program" check <"$work/in" >/dev/full 2>"$work/err" || status=$?
    judge 'a write that fails, of a fault'
fi
# what an accepted file asks for is more than the memory that it is given: two to the sixtieth paths, which a COPY places one by one
{
    printf '{"dockerfile":{"text":"FROM scratch AS s0\\nRUN put /f x\\n'
    for n in $(seq 60); do
        printf 'FROM scratch AS s%d\\nCOPY --from=s%d / /a/\\nCOPY --from=s%d / /b/\\n' "$n" $((n - 1)) $((n - 1))
    done
    printf 'FROM scratch\\nRUN put /d/f x\\nCOPY --from=s60 / /d/\\n"}}'
} >"$work/in"
want=3 out='' err='out of memory' status=0
(ulimit -v 400000 && exec "$program" build) <"$work/in" >"$work/out" 2>"$work/err" || status=$?
judge 'more paths to place than there is memory for'

echo "$rows runs, each with the status and the words of docs/formats/command-line.md"
