# Tests of tools/dtc and tools/fdtoverlay as a build uses them; read by `run`, whose `is`, `told` and `hex` they use.
# shellcheck shell=sh

# DTOOL_LINT: what lint gets, and that output and status stay. A program takes Python's place, and prints the words that lint gets.
linted() {
    printf '#!/bin/sh\nshift 5\necho "lint: $*"\nexit "${LINT_STATUS:-0}"\n' > python && chmod +x python
    printf '/dts-v1/;\n/ { a; };\n' > ok.dts
    printf '/dts-v1/;\n/plugin/;\n&a { };\n' > overlay.dts
    "$tools/dtc" -o want.dtb ok.dts
    words='lint: --warnings --source ok.dts --name ok.dts'
    is 'dtc: DTOOL_LINT' "0 $words" "$(PYTHON=$PWD/python DTOOL_LINT=1 "$tools/dtc" -o got.dtb ok.dts 2> lint.txt; echo "$? $(sed 's/ [^ ]*$//' lint.txt)")"
    is 'dtc: DTOOL_LINT: the blob' 0 "$(cmp -s want.dtb got.dtb; echo $?)"
    is 'dtc: DTOOL_LINT: a finding' "0 $words" \
        "$(LINT_STATUS=1 PYTHON=$PWD/python DTOOL_LINT=1 "$tools/dtc" -o got.dtb ok.dts 2> lint.txt; echo "$? $(sed 's/ [^ ]*$//' lint.txt)")"
    is 'dtc: DTOOL_LINT: not linted' '0 Warning: ok.dts: not linted' \
        "$(LINT_STATUS=2 PYTHON=$PWD/python DTOOL_LINT=1 "$tools/dtc" -o got.dtb ok.dts 2> lint.txt; echo "$? $(tail -n 1 lint.txt)")"
    is 'dtc: DTOOL_LINT: no Python' '0 Warning: ok.dts: not linted' \
        "$(PYTHON=$PWD/nopython DTOOL_LINT=1 "$tools/dtc" -o got.dtb ok.dts 2> lint.txt; echo "$? $(tail -n 1 lint.txt)")"
    is 'dtc: no DTOOL_LINT' '0 ' "$(PYTHON=$PWD/python "$tools/dtc" -o got.dtb ok.dts 2> lint.txt; echo "$? $(cat lint.txt)")"
    is 'dtc: DTOOL_LINT: quiet' '0 ' "$(PYTHON=$PWD/python DTOOL_LINT=1 "$tools/dtc" -q -o got.dtb ok.dts 2> lint.txt; echo "$? $(cat lint.txt)")"
    is 'dtc: DTOOL_LINT: an object' '0 ' "$(PYTHON=$PWD/python DTOOL_LINT=1 "$tools/dtc" -o got.dtbo overlay.dts 2> lint.txt; echo "$? $(cat lint.txt)")"
    is 'lint: no Python' "dtool-lint: no program $PWD/nopython: it needs Python 3.8 or later" "$(PYTHON=$PWD/nopython told "$tools/lint" x.dtb)"
    is 'lint: no Python, status' 2 "$(PYTHON=$PWD/nopython "$tools/lint" x.dtb 2> /dev/null; echo $?)"
}

status_of() { "$@" > /dev/null 2>&1; echo $?; }

# What a source means to a script: the text of its blob.
text_of() { # WORD..
    "$tools/dtc" -o text.dtb "$@" && "$DTOOL" print text.dtb
}

# ---- the dialect: what a whole build needs

let_through() {
    # A label of two nodes, of which the first is deleted later.
    printf '/dts-v1/;\n/ { p = <&l>; l: a { }; };\n/ { l: b { }; };\n/delete-node/ &{/a};\n' > moved.dts
    is 'dtc: a label of a node that is deleted later' '/dts-v1/;
/ {
	p = <0x1>;
	b {
		phandle = <0x1>;
	};
};' "$(text_of moved.dts)"
    printf '/dts-v1/;\n/ { c { l: a { }; }; };\n/ { l: b { }; };\n/ { /delete-node/ c; };\n' > moved.dts
    is 'dtc: a label below a node that is deleted later' 0 "$(status_of "$tools/dtc" -@ -o x.dtb moved.dts)"
    printf '/dts-v1/;\n/ { p = <&l>; l: a { }; };\n&l { x; };\n/ { b: b { l: c { }; }; };\n/delete-node/ &b;\n&l { y; };\n' > moved.dts
    is 'dtc: a label that a deleted node had besides' '/dts-v1/;
/ {
	p = <0x1>;
	a {
		x;
		y;
		phandle = <0x1>;
	};
};' "$(text_of moved.dts)"
    for it in '&l { x; };' '/delete-node/ &l;' '/omit-if-no-ref/ &l;'; do
        printf '/dts-v1/;\n/ { l: a { }; };\n/ { l: b { }; };\n%s\n/ { /delete-node/ a; };\n' "$it" > stays.dts
        is "dtc: a label of two nodes, and $it" 'Error: stays.dts:3.5: fault 22 DuplicateLabel: l' "$(told "$tools/dtc" -o x.dtb stays.dts | head -n 1)"
    done
    printf '/dts-v1/;\n/ { l: a { }; };\n&l { x; };\n/ { l: b { }; };\n/ { /delete-node/ a; };\n' > stays.dts
    is 'dtc: a block of the label before the second' 1 "$(status_of "$tools/dtc" -o x.dtb stays.dts)"
    printf '/dts-v1/;\n/ { l: a { }; };\n/ { l: b { }; };\n' > stays.dts
    is 'dtc: a label of two nodes that stay' 1 "$(status_of "$tools/dtc" -o x.dtb stays.dts)"

    # Deletions in an overlay.
    printf '/dts-v1/;\n/plugin/;\n&x {\n\tk;\n\t/delete-property/ y;\n\t/delete-node/ z@1;\n};\n' > drop.dts
    is 'dtc: a deletion in an overlay' 'Warning: drop.dts:5.2: this deletion has no effect on the base
Warning: drop.dts:6.2: this deletion has no effect on the base' "$(told "$tools/dtc" -@ -o x.dtbo drop.dts)"
    printf '/dts-v1/; /plugin/; &x { k; };' > kept.dts
    "$DTOOL" compile kept.dts > kept.dtbo
    is 'dtc: an overlay without its deletions' "$(hex kept.dtbo)" "$(hex x.dtbo)"
    for it in '/delete-node/ &outside;' '&x { k; /delete-property/ k; };' '&x { c { }; }; &x { /delete-node/ c; };' \
        '/ { n: n { k; }; }; &n { /delete-property/ k; };'; do
        printf '/dts-v1/; /plugin/; %s\n' "$it" > refused.dts
        is "dtc: $it in an overlay" 1 "$(status_of "$tools/dtc" -@ -o x.dtbo refused.dts)"
    done

    # Nodes of /omit-if-no-ref/.
    printf '/dts-v1/;\n/ { p = <&u>; q = &{/t}; /omit-if-no-ref/ l: a { x { }; }; /omit-if-no-ref/ u: u { };
	/omit-if-no-ref/ t { }; /omit-if-no-ref/ v { }; w: w { }; };
&l { y; };\n/omit-if-no-ref/ &w;\n' > omit.dts
    is 'dtc: nodes to which nothing refers' '/dts-v1/;
/ {
	p = <0x1>;
	q = "/t";
	u {
		phandle = <0x1>;
	};
	t {
	};
};' "$(text_of omit.dts)"
    printf '/dts-v1/;\n/ { /omit-if-no-ref/ l: a { b { }; /omit-if-no-ref/ c { }; }; };\n/omit-if-no-ref/ &l;\n' > twice.dts
    is 'dtc: a node that is omitted twice' '/dts-v1/;
/ {
};' "$(text_of twice.dts)"
    printf '/dts-v1/;\n/ { n { x; }; };\n/ { n { c; }; };\n&{/n} { /omit-if-no-ref/ c { }; };\n' > both.dts
    is 'dtc: a node that has the name of a property' '/dts-v1/;
/ {
	n {
		x;
		c;
	};
};' "$(text_of both.dts)"
    is 'dtc -@: nodes to which nothing refers' 'a t u w ' "$(text_of -@ omit.dts | sed -n 's/^	\([a-z]\) {$/\1/p' | sort | tr '\n' ' ')"
    printf '/dts-v1/;\n/ { p = <&b>; /omit-if-no-ref/ a { b: b { }; }; };\n' > child.dts
    is 'dtc: a node of whose children one is referred to' 'Warning: child.dts:2.15: /a stays, although nothing refers to it: something refers to /a/b' \
        "$(told "$tools/dtc" -o x.dtb child.dts)"
    printf '/dts-v1/;\n/ { /omit-if-no-ref/ a { p = <&b>; b: b { }; }; /omit-if-no-ref/ c: c { }; d { q = <&c>; }; };
/ { d { /delete-property/ q; }; };\n' > inner.dts
    is 'dtc: a reference inside, and one that is deleted' '/dts-v1/;
/ {
	d {
	};
};' "$(text_of inner.dts)"
}

# ---- options

blob_options() {
    printf '/dts-v1/;\n/memreserve/ 0x10 0x20;\n/ { b = <1>; #c = "x"; a { }; };\n' > r.dts
    "$DTOOL" compile --raw r.dts > r.dtb
    "$tools/dtc" -R 2 -o got.dtb r.dts
    is 'dtc: -R' "$(hex r.dtb | cut -c81-112)$(printf '%096d' 0)" "$(hex got.dtb | cut -c81-208)"
    is 'dtc: -R, the size' $(($(wc -c < r.dtb) + 32)) $(($(wc -c < got.dtb)))
    is 'dtc: -R, what is read' "$("$DTOOL" print r.dtb)" "$("$DTOOL" print got.dtb)"
    "$tools/dtc" -R 4 -S 1000 -o got.dtb r.dts; is 'dtc: -R before -S' 1000 $(($(wc -c < got.dtb)))
    is 'dtc: -a of no power of two' "dtc: -a needs a power of two: 3" "$(told "$tools/dtc" -a 3 r.dts)"
    is 'dtc: -p in octal' "dtc: -p needs a number: 08" "$(told "$tools/dtc" -p 08 r.dts)"
    is 'dtc: -S beyond' "dtc: -S needs a number below 4294967296: 0x100000000" "$(told "$tools/dtc" -S 0x100000000 r.dts)"
    "$tools/dtc" -p 010 -o got.dtb r.dts; is 'dtc: -p in octal digits' $(($(wc -c < r.dtb) + 8)) $(($(wc -c < got.dtb)))

    is 'dtc: a source of a source' "$("$DTOOL" print r.dtb)" "$("$tools/dtc" -I dts -O dts -o - -b 0 r.dts)"
    is 'dtc: -s' '/dts-v1/;
/memreserve/ 0x0000000000000002 0x0000000000000003;
/memreserve/ 0x0000000000000010 0x0000000000000020;
/ {
	#c = "{ x; };";
	B;
	b;
	a {
		y;
		z;
		c {
		};
		d {
		};
	};
	e {
	};
};' "$(printf '/dts-v1/;\n/memreserve/ 0x10 0x20; /memreserve/ 2 3;\n/ { b; #c = "{ x; };"; B; e { }; a { z; y; d { }; c { }; }; };\n' > s.dts
    "$tools/dtc" -s -I dts -O dts s.dts)"
    "$tools/dtc" -b 7 -o s.dtb s.dts
    "$tools/dtc" -s -I dtb -O dtb -o sorted.dtb s.dtb
    is 'dtc: -s of a blob' "$("$tools/dtc" -s -I dts -O dts s.dts)" "$("$tools/dtc" -I dtb -O dts sorted.dtb)"
    is 'dtc: -s keeps the boot CPU' 00000007 "$(hex sorted.dtb | cut -c57-64)"
    printf '/dts-v1/;\n/ { cpus { cpu@500 { reg = <0x500>; }; cpu@1 { reg = <1>; }; }; };\n' > cpus.dts
    "$tools/dtc" -o got.dtb cpus.dts; is 'dtc: the boot CPU' 00000500 "$(hex got.dtb | cut -c57-64)"
    "$tools/dtc" -b 0 -o got.dtb cpus.dts; is 'dtc: the boot CPU by -b' 00000000 "$(hex got.dtb | cut -c57-64)"

    # Names of checks.
    for it in -Wreg_format -Wno-reg_format -Wno-what_will_be -Eno-what_was '-W graph_nodes'; do
        # shellcheck disable=SC2086
        is "dtc $it" '0 ' "$(told=$("$tools/dtc" $it -o got.dtb r.dts 2>&1); echo "$? $told")"
    done
    is 'dtc -E' "Warning: -E reg_format has no effect: dtool runs no checks" "$("$tools/dtc" -E reg_format -o got.dtb r.dts 2>&1)"
    is 'dtc -Wfoo' "dtc: -W foo: there is no such check" "$(told "$tools/dtc" -Wfoo r.dts)"
    is 'dtc -E all' "dtc: -E all: there is no such check" "$(told "$tools/dtc" -E all r.dts)"
    printf '/dts-v1/;\n/ { a; a; };\n' > twice.dts
    is 'dtc -f, a fault' 'dtc: -f has no effect: dtool writes no blob for a source with a fault' "$(told "$tools/dtc" -f -o got.dtb twice.dts | tail -n 1)"
    is 'dtc -f' 0 "$(status_of "$tools/dtc" -f -o got.dtb r.dts)"

    # A folder.
    rm -rf tree && mkdir -p tree/soc/dev@1 tree/cpus/cpu@3
    printf '\000' > tree/name; printf 'soc\000' > tree/soc/name; printf 'dev\000' > tree/soc/dev@1/name
    printf '\000\000\000\003' > tree/cpus/cpu@3/reg; printf 'a "\\\000' > tree/soc/text; : > tree/soc/ranges
    is 'dtc: -I fs' '/dts-v1/;
/ {
	cpus {
		cpu@3 {
			reg = <0x3>;
		};
	};
	soc {
		ranges;
		text = "a \"\\";
		dev@1 {
		};
	};
};' "$("$tools/dtc" -I fs tree)"
    is 'dtc: a folder' "$("$tools/dtc" -I fs tree)" "$("$tools/dtc" tree/)"
    "$tools/dtc" -O dtb -o got.dtb tree; is 'dtc: the boot CPU of a folder' 00000003 "$(hex got.dtb | cut -c57-64)"
    printf 'soc\000' > tree/soc/dev@1/name
    is 'dtc: -I fs, another name' 'Error: tree/soc/dev@1/name: not the name of the node' "$(told "$tools/dtc" -I fs -o none.dts tree)"
    rm tree/soc/dev@1/name && printf 'x' > 'tree/soc/dev@1/a b'
    is 'dtc: -I fs, no name of a property' 'Error: tree/soc/dev@1' "$(told "$tools/dtc" -I fs tree | head -n 1 | sed 's/:[0-9]*\.[0-9]*: fault.*//')"
    is 'dtc: -I fs of no folder' "dtc: can't read \"r.dts\": it is no folder" "$(told "$tools/dtc" -I fs r.dts)"
    is 'dtc: -I dts of a folder' "dtc: can't read \"tree\": it is a folder" "$(told "$tools/dtc" -I dts tree)"
}

# ---- names and places

names_and_places() {
    # Names come through as they are.
    for it in 'a b.dts' 'a\tb.dts' "it's.dts" 'do$HOME.dts' 'quo"te.dts' '-dash.dts' '*.dts' 'a=b.dts'; do
        mkdir -p odd && printf '/dts-v1/;\n/ {\n/include/ "of x.dtsi"\n\ta = <&nope>;\n};\n' > "odd/$it" && printf 'b;\n' > 'odd/of x.dtsi'
        is "dtc: the name $it" "Error: $it:4.7: fault 24 UnresolvedReference: &nope" "$(cd odd && told "$tools/dtc" -o x.dtb -- "$it" | head -n 1)"
        printf '/dts-v1/;\n/ {\n/include/ "of x.dtsi"\n};\n' > "odd/$it"
        is "dtc: the name $it, and its output" "$it.dtb" "$(cd odd && "$tools/dtc" -o "$it.dtb" -- "$it" && ls -- "$it.dtb")"
        is "dtc: the name $it, as a blob" "/dts-v1/;" "$(cd odd && "$tools/dtc" -I dtb -- "$it.dtb" | head -n 1)"
        printf '/dts-v1/; /plugin/;\n&nope { };\n' > odd/o.dts && "$DTOOL" compile odd/o.dts > "odd/$it.dtbo"
        is "fdtoverlay: the name $it" "Error: $it.dtbo: fault 60 NoSymbol: the base has no label nope, which \"/fragment@0:target:0\" needs" \
            "$(cd odd && told "$tools/fdtoverlay" -i "$it.dtb" -o x.dtb -- "$it.dtbo")"
        is "where: the name $it" "$it.dtb: byte 4, the header" "$(cd odd && "$tools/where" -- "$it.dtb" 4)"
        rm -rf odd
    done
    mkdir -p 'p:q' 'in c' && printf 'n;\n' > 'p:q/one.dtsi' && printf 'm;\n' > 'in c/two.dtsi'
    printf '/dts-v1/;\n/ {\n/include/ "one.dtsi"\n/include/ "two.dtsi"\n};\n' > two.dts
    "$tools/dtc" -i 'p:q' -i 'in c' -d two.d -o 'x $y.dtb' two.dts
    is 'dtc: folders with a colon and a blank' 'x\ $$y.dtb: two.dts p:q/one.dtsi in\ c/two.dtsi' "$(cat two.d)"

    # Symlinks: to the script, and to the output.
    mkdir -p far/er && ln -sf "$tools/dtc" far/dtc && ln -sf ../dtc far/er/dtc && ln -sf "$tools/fdtoverlay" far/fdtoverlay && ln -sf "$tools/where" far/where
    ln -sf "$tools/dialect" far/dialect && ln -sf "$tools/install" far/install && ln -sf "$tools/build" far/build
    printf '/dts-v1/;\n/ { /omit-if-no-ref/ a { }; };\n' > om.dts
    is 'dtc behind symlinks' 0 "$(status_of far/er/dtc -o x.dtb om.dts)"
    is 'dtc behind a symlink, on the path' 0 "$(PATH=$PWD/far/er:$PATH; export PATH; status_of dtc -o x.dtb om.dts)"
    printf '/dts-v1/;\n/ { a; a; };\n' > twice.dts
    is 'dtc behind symlinks, a fault' 'Error: twice.dts:2.8: fault 20 DuplicateProperty' "$(told far/er/dtc -o x.dtb twice.dts | head -n 1)"
    for it in fdtoverlay where dialect install build; do
        is "$it behind a symlink" "dtool 0" "$(far/$it --version | sed 's/^Version: DTC 1.6.1-dtool-/dtool /; s/.*\(dtool\) \([0-9]*\)\..*/\1 \2/')"
    done
    mkdir -p deep && rm -f deep/link.dtb deep/real.dtb && echo old > deep/real.dtb && chmod 640 deep/real.dtb && ln -s real.dtb deep/link.dtb
    "$tools/dtc" -o deep/link.dtb om.dts
    is 'dtc: -o of a symlink' 'link, 640, dts' \
        "$([ -L deep/link.dtb ] && echo "link, $(stat -c %a deep/real.dtb), $("$DTOOL" print deep/real.dtb | head -c 5 | cut -c2-4)")"
    "$DTOOL" compile om.dts > base.dtb 2> /dev/null || "$tools/dtc" -@ -o base.dtb om.dts
    echo old > deep/real.dtb
    "$tools/fdtoverlay" -i base.dtb -o deep/link.dtb base.dtb
    is 'fdtoverlay: -o of a symlink' 'link, 640' "$([ -L deep/link.dtb ] && echo "link, $(stat -c %a deep/real.dtb)")"
    ln -sf new.dtb deep/dangling.dtb
    "$tools/dtc" -o deep/dangling.dtb om.dts
    is 'dtc: -o of a symlink to nothing yet' 'link, made' "$([ -L deep/dangling.dtb ] && [ -s deep/new.dtb ] && echo 'link, made')"
    is 'dtc: -o in no folder' "dtc: can't write \"none/x.dtb\": there is no folder \"none\"" "$(told "$tools/dtc" -o none/x.dtb om.dts)"
    is 'dtc: -d in no folder' "dtc: can't write \"none/x.d\"" "$(told "$tools/dtc" -o x.dtb -d none/x.d om.dts)"
    is 'fdtoverlay: -o in no folder' "fdtoverlay: can't write \"none/x.dtb\": there is no folder \"none\"" \
        "$(told "$tools/fdtoverlay" -i base.dtb -o none/x.dtb base.dtb)"
    is 'dtc: a new file has the usual mode' "$(rm -f m1 m2; : > m1; stat -c %a m1)" "$("$tools/dtc" -o m2 om.dts; stat -c %a m2)"
    "$tools/dtc" -o om.dtb om.dts && "$tools/dtc" -I dtb -O dtb -o om.dtb om.dtb
    is 'dtc: in its place' 0 "$(status_of "$DTOOL" check om.dtb)"
    "$tools/dtc" -o /dev/null om.dts; is 'dtc: -o /dev/null' 'still there' "$([ -c /dev/null ] && echo 'still there')"
    for it in dtc fdtoverlay; do is "$it --version" "Version: DTC 1.6.1-dtool-" "$("$tools/$it" --version | cut -c1-25)"; done
}

# ---- fallbacks

# A program that says what it is run with, and how; its status is 3 where it is to fail.
other_program() { # NAME
    cat > "$1" <<'TEXT'
#!/bin/sh
echo "run with: $*; else: ${DTOOL_ELSE-none} ${DTOOL_ELSE_FDTOVERLAY-none}"
[ -z "${READS:-}" ] || cat
exit "${ENDS:-0}"
TEXT
    chmod +x "$1"
}

fallbacks() {
    printf '/dts-v1/;\n/ { l: a { }; };\n/ { l: b { }; };\n' > bad.dts
    printf '/dts-v1/;\n/ { };\n' > good.dts
    other_program 'other dtc'
    DTOOL_ELSE=$PWD/'other dtc'
    export DTOOL_ELSE
    is 'DTOOL_ELSE: what is answered' "0 run with: -@ -o x y.dtb bad.dts; else: none none" \
        "$(got=$("$tools/dtc" -@ -o 'x y.dtb' bad.dts 2> said); echo "$? $got")"
    is 'DTOOL_ELSE: what is said' "Warning: bad.dts:3.5: fault 22 DuplicateLabel: l
Warning: bad.dts: compiled by $DTOOL_ELSE instead" "$(grep Warning said)"
    is 'DTOOL_ELSE: nothing is left' 'none' "$(ls 'x y.dtb'* 2> /dev/null || echo none)"
    is 'DTOOL_ELSE: not where dtool compiles' '0 ' "$(got=$("$tools/dtc" -o x.dtb good.dts 2>&1); echo "$? $got")"
    is 'DTOOL_ELSE: an option' "Warning: dtc: -A isn't done: good.dts compiled by $DTOOL_ELSE instead" "$(told "$tools/dtc" -A -o x.dtb good.dts)"
    is 'DTOOL_ELSE: a format' "Warning: dtc: -O yaml isn't done: good.dts compiled by $DTOOL_ELSE instead" "$(told "$tools/dtc" -O yaml -o x.dtb good.dts)"
    is 'DTOOL_ELSE: its status' 3 "$(ENDS=3; export ENDS; status_of "$tools/dtc" -o x.dtb bad.dts)"
    is 'DTOOL_ELSE: standard input' "run with: -I dts -; else: none none
$(cat bad.dts)" "$(READS=1; export READS; "$tools/dtc" -I dts - < bad.dts 2> /dev/null)"
    is 'DTOOL_ELSE: a blob' "Warning: cut.dtb: compiled by $DTOOL_ELSE instead" "$(head -c 50 want.dtb > cut.dtb; told "$tools/dtc" -I dtb cut.dtb | tail -n 1)"
    is 'DTOOL_ELSE: no such file' 'dtc: can'"'"'t read "none.dts": no such file' "$(told "$tools/dtc" none.dts)"
    # Not where dtool itself fails.
    for it in 'fault 1 NoMemory' 'fault 90 WriteFault' 'fault 91 ReadFault'; do
        printf '#!/bin/sh\necho "dtool: input 0: %s" >&2\nexit 1\n' "$it" > failing && chmod +x failing
        is "DTOOL_ELSE: not for $it" "1 Error: good.dts: $it" "$(got=$(DTOOL=$PWD/failing "$tools/dtc" -o x.dtb good.dts 2>&1); echo "$? $got")"
    done
    printf '#!/bin/sh\nkill -9 $$\n' > failing
    is 'DTOOL_ELSE: not where a signal ended dtool' 'Error: good.dts: dtool ended with status 137' \
        "$(DTOOL=$PWD/failing told "$tools/dtc" -o x.dtb good.dts | tail -n 1)"
    is 'DTOOL_ELSE: not where dtool is missing' '1 dtc: no program dtool: set DTOOL to its path' \
        "$(got=$(DTOOL=$PWD/none "$tools/dtc" -o x.dtb bad.dts 2>&1); echo "$? $got")"
    # A fallback that is the script itself ends; one that isn't there is named.
    is 'DTOOL_ELSE: the script itself' 1 "$(DTOOL_ELSE=$tools/dtc status_of "$tools/dtc" -o x.dtb bad.dts)"
    is 'DTOOL_ELSE: no program' "dtc: no program $PWD/none -x, which was to be run instead" \
        "$(DTOOL_ELSE="$PWD/none -x" told "$tools/dtc" -o x.dtb bad.dts | tail -n 1)"
    DTOOL_ELSE=
    is 'DTOOL_ELSE: empty' 1 "$(status_of "$tools/dtc" -o x.dtb bad.dts)"
    unset DTOOL_ELSE

    other_program 'other fdtoverlay'
    DTOOL_ELSE_FDTOVERLAY=$PWD/'other fdtoverlay'
    export DTOOL_ELSE_FDTOVERLAY
    "$DTOOL" compile good.dts > good.dtb
    printf '/dts-v1/; /plugin/;\n&nope { };\n' > no.dts && "$DTOOL" compile no.dts > no.dtbo
    is 'DTOOL_ELSE_FDTOVERLAY: what is answered' '0 run with: -i good.dtb -o x.dtb no.dtbo; else: none none' \
        "$(got=$("$tools/fdtoverlay" -i good.dtb -o x.dtb no.dtbo 2> said); echo "$? $got")"
    is 'DTOOL_ELSE_FDTOVERLAY: what is said' "Warning: no.dtbo: fault 60 NoSymbol: the base has no label nope, which \"/fragment@0:target:0\" needs
Warning: x.dtb: made by $DTOOL_ELSE_FDTOVERLAY instead" "$(cat said)"
    is 'DTOOL_ELSE_FDTOVERLAY: its status' 3 "$(ENDS=3; export ENDS; status_of "$tools/fdtoverlay" -i good.dtb -o x.dtb no.dtbo)"
    is 'DTOOL_ELSE_FDTOVERLAY: not for dtc' 1 "$(status_of "$tools/dtc" -o x.dtb bad.dts)"
    is 'DTOOL_ELSE_FDTOVERLAY: no such file' 'Error: none.dtbo: fault 91 ReadFault' "$(told "$tools/fdtoverlay" -i good.dtb -o x.dtb none.dtbo)"
    unset DTOOL_ELSE_FDTOVERLAY
}

# ---- objects that aren't applied, entry by entry

objects() {
    printf '/dts-v1/; / { soc { l: uart { x = <1>; }; }; };' > b.dts && "$DTOOL" compile b.dts > b.dtb
    object() { printf '/dts-v1/; / { %s };' "$1" > obj.dts && "$DTOOL" compile --raw obj.dts > obj.dtb; }
    fragment='f { target-path = "/soc"; __overlay__ { p = <0xffffffff>; n { phandle = <1>; }; }; };'
    for it in '/nope:p:0|no node /nope' '/f/__overlay__:q:0|no property q in /f/__overlay__' '/f/__overlay__:p:1|no four bytes there' \
        'f|no text PATH:PROPERTY:OFFSET'; do
        object "$fragment __fixups__ { l = \"/f/__overlay__:p:0\", \"${it%|*}\"; };"
        is "where --apply: 63, ${it#*|}" "obj.dtb: fault 63 BadFixup: /__fixups__ l = \"${it%|*}\": ${it#*|}" "$("$tools/where" --apply b.dtb obj.dtb)"
    done
    object "$fragment __fixups__ { l = <1 2>; };"
    is 'where --apply: 63, no texts' 'obj.dtb: fault 63 BadFixup: /__fixups__ l = <0x1 0x2>: no texts PATH:PROPERTY:OFFSET' \
        "$("$tools/where" --apply b.dtb obj.dtb)"
    object "$fragment __local_fixups__ { f { __overlay__ { p = <0>; }; }; };"
    is 'where --apply: 64, no node' \
        'obj.dtb: fault 64 BadLocalFixup: /__local_fixups__/f/__overlay__ p, offset 0: no node of the object has phandle 0xffffffff' \
        "$("$tools/where" --apply b.dtb obj.dtb)"
    object "$fragment __local_fixups__ { f { __overlay__ { p = <4>; }; }; };"
    is 'where --apply: 64, beyond the value' 'obj.dtb: fault 64 BadLocalFixup: /__local_fixups__/f/__overlay__ p, offset 4: no four bytes there' \
        "$("$tools/where" --apply b.dtb obj.dtb)"
    object "$fragment __local_fixups__ { f { __overlay__ { q = <0>; }; }; };"
    is 'where --apply: 64, no property' 'obj.dtb: fault 64 BadLocalFixup: /__local_fixups__/f/__overlay__ q, offset 0: no property q in /f/__overlay__' \
        "$("$tools/where" --apply b.dtb obj.dtb)"
    object 'o { phandle = <9>; }; f { target-path = "/soc"; __overlay__ { p = <9>; }; }; __local_fixups__ { f { __overlay__ { p = <0>; }; }; };'
    is 'where --apply: 64, a node outside' \
        'obj.dtb: fault 64 BadLocalFixup: /__local_fixups__/f/__overlay__ p, offset 0: phandle 0x9 is that of /o, which is in no fragment' \
        "$("$tools/where" --apply b.dtb obj.dtb)"
    object "$fragment __symbols__ { m = \"/f/__overlay__/none\"; };"
    is 'where --apply: 61, of the object' 'obj.dtb: fault 61 BadSymbol: /__symbols__ m = "/f/__overlay__/none": no node of the object has this path' \
        "$("$tools/where" --apply b.dtb obj.dtb)"
    object "$fragment __fixups__ { l = \"/f/__overlay__:p:0\"; };"
    printf '/dts-v1/; / { soc { }; __symbols__ { l = "/soc/uart"; }; };' > c.dts && "$DTOOL" compile --raw c.dts > c.dtb
    is 'where --apply: 61, of the base' 'c.dtb: fault 61 BadSymbol: /__symbols__ l = "/soc/uart": no node has this path' \
        "$("$tools/where" --apply c.dtb obj.dtb)"
    printf '/dts-v1/; / { soc { uart { }; }; __symbols__ { l = "/soc/uart"; }; };' > c.dts && "$DTOOL" compile --raw c.dts > c.dtb
    is 'where --apply: 61, no phandle' 'c.dtb: fault 61 BadSymbol: /__symbols__ l = "/soc/uart": the node has no phandle' \
        "$("$tools/where" --apply c.dtb obj.dtb)"
    is 'where --apply: a source' 'b.dts: fault 41 BadMagic: this is a source; compile it first' "$("$tools/where" --apply b.dtb b.dts)"
    is 'where --apply: the base is a source' 'b.dts: fault 41 BadMagic: this is a source; compile it first' "$("$tools/where" --apply b.dts b.dtb)"
    head -c 60 b.dtb > short.dtb
    is 'where --apply: the base' 'short.dtb: fault 42 BadTotal' "$("$tools/where" --apply short.dtb obj.dtb)"
}

# ---- what the scripts are

versions() {
    is 'dtool --version' "dtool $(sed -n 's/^version=//p' "$tools/common.sh") (proofs checked in logic" "$("$DTOOL" --version 2>&1 | sed 's/ [0-9a-f]*)$//')"
    is 'dtool --version, the status' 2 "$(status_of "$DTOOL" --version)"
    if command -v rt > /dev/null; then
        is 'dtool --version, the logic' "$(rt version | sed 's/.*logic //')" "$("$DTOOL" --version 2>&1 | sed 's/.*logic //; s/)$//')"
    fi
}
