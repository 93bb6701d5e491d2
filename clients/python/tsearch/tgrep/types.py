"""The types of files of `-t` and `-T`: what their names match."""

_TYPES = """
ada: *.adb *.ads
asciidoc: *.adoc *.asc *.asciidoc
asm: *.asm *.s *.S
awk: *.awk
bat: *.bat *.cmd
bazel: *.bazel *.bzl BUILD WORKSPACE
c: *.[chH] *.[chH].in *.cats
clojure: *.clj *.cljc *.cljs *.cljx
cmake: *.cmake CMakeLists.txt
config: *.cfg *.conf *.config *.ini
cpp: *.[ChH] *.cc *.[ch]pp *.[ch]xx *.hh *.inl *.[ChH].in *.cc.in *.[ch]pp.in *.[ch]xx.in *.hh.in
cs: *.cs
css: *.css *.scss
csv: *.csv
cuda: *.cu *.cuh
cython: *.pyx *.pxi *.pxd
d: *.d
dart: *.dart
diff: *.patch *.diff
docker: *Dockerfile*
elisp: *.el
elixir: *.ex *.eex *.exs
elm: *.elm
erlang: *.erl *.hrl
fish: *.fish
fortran: *.f *.F *.f77 *.F77 *.pfo *.f90 *.F90 *.f95 *.F95
fsharp: *.fs *.fsx *.fsi
gn: *.gn *.gni
go: *.go
gradle: *.gradle
graphql: *.graphql *.graphqls
groovy: *.groovy *.gradle
h: *.h *.hpp
haskell: *.hs *.lhs *.cpphs *.c2hs *.hsc
html: *.htm *.html *.ejs
java: *.java *.jsp *.jspx *.properties
jinja: *.j2 *.jinja *.jinja2
js: *.js *.jsx *.vue *.cjs *.mjs
json: *.json composer.lock
jsonl: *.jsonl
julia: *.jl
jupyter: *.ipynb *.jpynb
kotlin: *.kt *.kts
less: *.less
license: COPYING* *LICENSE* *LICENCE*
lisp: *.el *.jl *.lisp *.lsp *.sc *.scm
log: *.log
lua: *.lua
m4: *.ac *.m4
make: [Mm]akefile [Gg][Nn][Uu]makefile [Mm]akefile.am [Mm]akefile.in *.mk *.mak
man: *.[0-9lnpx] *.[0-9][cEFMmpSx]
markdown: *.markdown *.md *.mdown *.mkdn *.mdwn *.mkd
matlab: *.m
meson: meson.build meson_options.txt
nim: *.nim *.nimf *.nimble *.nims
nix: *.nix
objc: *.h *.m
objcpp: *.h *.mm
ocaml: *.ml *.mli *.mll *.mly
org: *.org
pascal: *.pas *.dpr *.lpr *.pp *.inc
perl: *.perl *.pl *.PL *.plh *.plx *.pm *.t
php: *.php *.php3 *.php4 *.php5 *.phtml
po: *.po
protobuf: *.proto
ps: *.cdxml *.ps1 *.ps1xml *.psd1 *.psm1
py: *.py
r: *.R *.r *.Rmd *.Rnw
racket: *.rkt
rst: *.rst
ruby: *.gemspec *.rb *.rbw config.ru Gemfile .irbrc Rakefile
rust: *.rs
sass: *.sass *.scss
scala: *.scala *.sbt
sh: *.bash *.csh *.ksh *.sh *.tcsh *.zsh .bashrc .bash_profile .profile .zshrc .zprofile
sml: *.sml *.sig
spec: *.spec
sql: *.sql *.psql
svelte: *.svelte
svg: *.svg
swift: *.swift
systemd: *.automount *.conf *.device *.link *.mount *.path *.scope *.service *.slice *.socket *.swap *.target *.timer
tcl: *.tcl
tex: *.tex *.ltx *.cls *.sty *.bib *.dtx *.ins
tf: *.tf *.tfvars
thrift: *.thrift
toml: *.toml Cargo.lock
ts: *.ts *.tsx *.cts *.mts
txt: *.txt
typescript: *.ts *.tsx *.cts *.mts
vala: *.vala
verilog: *.v *.vh *.sv *.svh
vhdl: *.vhd *.vhdl
vim: *.vim
vue: *.vue
xml: *.xml *.xml.dist *.dtd *.xsl *.xslt *.xsd *.xjb *.rng *.sch *.xhtml
yacc: *.y
yaml: *.yaml *.yml
zig: *.zig
zsh: *.zsh .zshenv .zshrc .zlogin .zlogout .zprofile
"""
TYPES = {name: globs.split() for name, _, globs in (line.partition(":") for line in _TYPES.strip().splitlines())}
TYPES["python"] = TYPES["py"]
TYPES["md"] = TYPES["markdown"]
