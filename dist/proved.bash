# Functions for ./reduce, ./library, ./release and ./test: what was proved of the sources as they are now. To be sourced in the project's
# root. A manifest names the digest of the sources that files were built from, and the digest of each file; no time of a file decides.

dist=dist/x86_64-linux

# Prints the digest of the sources: crates.txt, and what rt reads of src/, specs/ and proofs/ of each crate. Refuses symbolic links: what
# they lead to would not be seen. What rt makes is in the out/ of each crate, and is not looked at.
sources_digest() {
  local link
  link=$(find crates.txt crates -type d -regex 'crates/[^/]*/out' -prune -o -type l -print -quit 2>/dev/null) || return 1
  if [[ -n $link ]]; then
    printf '%s: a symbolic link among the sources\n' "$link" >&2
    return 1
  fi
  LC_ALL=C find crates.txt crates/*/src crates/*/specs crates/*/proofs -type f \( -name '*.rt' -o -name '*.antt' -o -name crates.txt \) \
    -print0 2>/dev/null | LC_ALL=C sort -z | xargs -0 sha256sum | sha256sum | cut -d ' ' -f 1
}

# Prints the version that the header states.
header_version() {
  sed -n 's/^#define TERKWABU_VERSION_\(MAJOR\|MINOR\|PATCH\) \([0-9]*\)$/\2/p' include/terkwabu.h | paste -s -d .
}

# Prints what a manifest says under a name.
#   manifest_has MANIFEST NAME
manifest_has() { sed -n "s|^$2 ||p" "$1" 2>/dev/null; }

# Tells whether a file is the one that a manifest has, and was built from the sources as they are now.
#   is_current MANIFEST FOLDER NAME DIGEST
is_current() {
  local known
  [[ -f $1 && -f $2/$3 && $(manifest_has "$1" sources) == "$4" ]] || return 1
  known=$(manifest_has "$1" "sha256 $3")
  [[ -n $known && $(sha256sum <"$2/$3") == "$known  -" ]]
}

# Writes a manifest of files in a folder, which were built from the sources with that digest.
#   write_manifest MANIFEST FOLDER DIGEST FILE ...
write_manifest() {
  local manifest=$1 folder=$2 digest=$3 prover made name
  shift 3
  prover=$(rt version) || return 1
  made=$(mktemp "$manifest.XXXXXX") || return 1
  {
    printf 'version %s\nsources %s\nprover %s\n' "$(header_version)" "$digest" "$prover"
    for name; do printf 'sha256 %s %s\n' "$name" "$(sha256sum <"$folder/$name" | cut -d ' ' -f 1)"; done
  } >"$made" && chmod 644 "$made" && mv -f -- "$made" "$manifest"
}

# Proves crates with rt, each with those beneath it, and tells on standard error how far that has come. `check` takes crates that were
# proved before and have not changed since as they are; `verdict` proves each from nothing, and takes nothing that earlier runs left. What
# rt prints is shown where the proofs fail. The caller sets pipefail.
#   prove_crates check|verdict CRATE ...
prove_crates() {
  local log=build/proving.log last=build/proving.seconds began=$SECONDS verb=$1 crate expected line name='' status=0
  shift
  expected=$(cat "$last" 2>/dev/null) || expected=600
  printf 'proving from the sources; about %d s if nothing was proved before\n' "$expected" >&2
  : >"$log"
  for crate; do (cd "crates/$crate" && rt "$verb") || exit; done </dev/null 2>&1 | while IFS= read -r line || [[ -n $line ]]; do
    printf '%s\n' "$line" >>"$log"
    case $line in
      # These two name the crate, and the last line that is said of it follows.
      "rt: chose --jobs "*" for "*) name=${line##* } ;;
      "fn "*"::"*": proved") name=${line#fn } name=${name%%::*} ;;
      "logic=proved tests="*) ;;
      "logic=proved "*) printf '  %s proved; %d s so far, of about %d\n' "$name" $((SECONDS - began)) "$expected" >&2 ;;
    esac
  done || status=$?
  if ((status != 0)); then
    tail -n 40 "$log" >&2
    return 1
  fi
  # What took long proved most crates: the next estimate goes by it.
  if ((SECONDS - began > 60)); then printf '%d\n' $((SECONDS - began)) >"$last"; fi
}

# Has rt build a crate that was proved, into its out/: `lib` the archive out/lib*.a, `run` a program out/*, which it also runs, here on no
# input. rt takes what was proved before as it is, and proves the rest. What it prints is shown where it fails.
#   build_crate lib|run CRATE
build_crate() {
  (cd "crates/$2" && rt "$1") </dev/null >build/proving.log 2>&1 || {
    tail -n 40 build/proving.log >&2
    return 1
  }
}
