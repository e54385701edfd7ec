#!/usr/bin/env bash
# Looks at pages as a reader's browser does.
#
#   tests/page.sh PAGE..      HTML files; where NAME.html has a NAME.name beside it, that is the name its heading has to show
#
# Of each page: nothing is fetched and nothing runs; `tidy -e` finds nothing; headless Chromium opens it 360, 1,280 and 2,560
# pixels wide, in light and dark, without an error in its log; nothing is wider than the window; no text of a picture is cut
# off, and no two numbers or names of a picture run into each other; it is printed to PDF. A tool that isn't on this machine is
# left out, and named. Pictures of the windows stay in the folder that $KEEP names, if it names one. Ends with 1 where
# something is wrong, with 2 where there is no page. Nothing is written into the repository.
set -u
export LC_ALL=C.UTF-8

[ $# -gt 0 ] || { echo "page: no page is named" >&2; exit 2; }
folder=$(mktemp -d) || exit 2
trap 'rm -rf "$folder"' EXIT
keep=${KEEP:-}
[ -z "$keep" ] || mkdir -p "$keep" || exit 2

wrong=0 passed=0 failed=0
left_out=()

# Notes what is wrong.
fault() {
    wrong=$((wrong + 1))
    echo "$1"
}

browser=''
for tool in chromium chromium-browser google-chrome; do
    if [ -z "$browser" ] && command -v "$tool" > /dev/null; then browser=$tool; fi
done
[ -n "$browser" ] || left_out+=("how pages look: there is no chromium here")
command -v tidy > /dev/null || left_out+=("whether pages are HTML: there is no tidy here")

# What the browser is asked: it stands in a copy of the page alone, and writes its answers into attributes of the root of the page
# that frames it.
cat > "$folder/asked.html" <<'ASKED'
<script>
const page = document.documentElement, root = parent.document.documentElement, cut = [], met = [];
for (const svg of document.querySelectorAll('svg[viewBox]')) {
    const box = svg.viewBox.baseVal, texts = [...svg.querySelectorAll('text')].map(t => [t.textContent, t.getBBox()]);
    for (const [text, b] of texts) {
        if (b.x < -1 || b.y < -1 || b.x + b.width > box.width + 1 || b.y + b.height > box.height + 1) cut.push(text);
        for (const [other, o] of texts) {
            const wide = Math.min(b.x + b.width, o.x + o.width) - Math.max(b.x, o.x);
            const high = Math.min(b.y + b.height, o.y + o.height) - Math.max(b.y, o.y);
            if (b !== o && wide > 1 && high > 3) met.push(text + ' and ' + other);
        }
    }
}
root.dataset.over = Math.max(0, page.scrollWidth - page.clientWidth);
root.dataset.cut = cut.slice(0, 5).join(', ');
root.dataset.met = met.slice(0, 5).join(', ');
root.dataset.wide = innerWidth;
root.dataset.dark = matchMedia('(prefers-color-scheme: dark)').matches;
root.dataset.name = encodeURIComponent(document.querySelector('h1 bdi').textContent);
</script>
ASKED

# Runs the browser without a window, in a folder of its own.
run_browser() {
    timeout 120 "$browser" --headless --no-sandbox --disable-gpu --hide-scrollbars --user-data-dir="$folder/profile" \
        --enable-logging=stderr "$@" 2> "$folder/log"
}

# a browser that opens nothing here says nothing of a page
if [ -n "$browser" ] && ! run_browser --dump-dom about:blank > /dev/null; then
    left_out+=("how pages look: $browser doesn't run here")
    browser=''
fi

# A page in a frame of this width, since no window is narrower than 500 pixels.
framed() {
    printf '<!DOCTYPE html><html lang="en"><meta charset="utf-8"><title>framed</title><body style="margin:0"><iframe width="%s" height="%s" style="border:0" srcdoc="' \
        "$1" "${HEIGHT:-6000}"
    sed 's/&/\&amp;/g; s/"/\&quot;/g' "$2"
    printf '"></iframe></body></html>\n'
}

# The answer that the root has under this name.
answer() {
    sed -n "s/.*data-$1=\"\([^\"]*\)\".*/\1/p" "$folder/dom" | head -n 1
}

# Looks at a page in a window of this width, in light or dark.
look() {
    local page=$1 width=$2 scheme=$3 options=() where
    where="$page, $width pixels, $scheme"
    [ "$scheme" = light ] || options+=(--force-dark-mode)
    framed "$width" "$folder/copy.html" > "$folder/framed.html"
    run_browser "${options[@]}" --window-size=2600,1600 --virtual-time-budget=5000 --dump-dom "file://$folder/framed.html" > "$folder/dom" \
        || fault "$where: the browser fails"
    ! grep -q ':ERROR:CONSOLE\|:INFO:CONSOLE' "$folder/log" || fault "$where: $(grep -m 1 CONSOLE "$folder/log")"
    [ "$(answer wide)" = "$width" ] || fault "$where: the window is $(answer wide) pixels wide"
    [ "$(answer over)" = 0 ] || fault "$where: $(answer over) pixels are beside the window"
    [ -z "$(answer cut)" ] || fault "$where: cut off: $(answer cut)"
    [ -z "$(answer met)" ] || fault "$where: run into each other: $(answer met)"
    [ "$(answer dark)" = "$([ "$scheme" = dark ] && echo true || echo false)" ] || fault "$where: it isn't $scheme"
    if [ -n "$wanted" ]; then
        [ "$(answer name | perl -pe 's/%(..)/chr hex $1/ge')" = "$wanted" ] || fault "$where: its heading isn't the name of the capture"
    fi
    if [ -n "$keep" ]; then
        framed "$width" "$page" > "$folder/framed.html"
        run_browser "${options[@]}" --window-size="$width,${HEIGHT:-6000}" --screenshot="$keep/$(basename "$page" .html)-$width-$scheme.png" \
            "file://$folder/framed.html" > /dev/null
    fi
}

# Looks at a page in each window, and prints it.
look_at() {
    local page=$1 width scheme
    [ -s "$page" ] || { fault "$page: there is no such page"; return; }
    wanted=''
    if [ -e "${page%.html}.name" ]; then wanted=$(< "${page%.html}.name"); fi
    ! grep -qiE '<script|<link|<img|<iframe|<object|@import|url\(|(src|href)=|\son[a-z]+=' "$page" || fault "$page: it runs or fetches something"
    if command -v tidy > /dev/null; then
        tidy -e -q "$page" > /dev/null 2> "$folder/tidy"
        [ ! -s "$folder/tidy" ] || fault "$page: tidy: $(head -n 3 "$folder/tidy")"
    fi
    [ -n "$browser" ] || return
    cat "$page" "$folder/asked.html" > "$folder/copy.html"
    for width in 360 1280 2560; do
        for scheme in light dark; do
            look "$page" "$width" "$scheme"
        done
    done
    run_browser --no-pdf-header-footer --print-to-pdf="$folder/page.pdf" "file://$(readlink -f "$page")" > /dev/null
    head -c 4 "$folder/page.pdf" 2> /dev/null | grep -q '%PDF' || fault "$page: it isn't printed"
    [ -z "$keep" ] || cp "$folder/page.pdf" "$keep/$(basename "$page" .html).pdf"
}

for page in "$@"; do
    before=$wrong
    look_at "$page"
    if [ "$wrong" -eq "$before" ]; then passed=$((passed + 1)); else failed=$((failed + 1)); fi
done

[ ${#left_out[@]} -eq 0 ] || printf 'left out: %s\n' "${left_out[@]}"
echo "page: $passed passed, $failed failed"
[ "$failed" -eq 0 ]
