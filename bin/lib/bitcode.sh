# shellcheck shell=bash disable=SC2154
# Makes the bitcode of a program without proof, with checks at run time. bin/lib/compile and tools/profile_build read this
# file, and have set `top` to the repository's folder.

# The folder of the Rattle kit whose rt is on the path. (rt may be a script that starts that of a kit.)
kit_folder() {
  local kit
  kit=$(dirname "$(dirname "$(readlink -f "$(command -v rt)")")")
  [ -d "$kit/toolchain" ] || kit=$(dirname "$(rt doc)")
  echo "$kit"
}

# Makes a kit like this one, with a compiler that only keeps what it is given first, as module.bc of the folder. It does not
# look for names that a check would refuse, either, since that takes a processor.
make_kit() {
  local kit=$1 folder=$2 it name
  mkdir -p "$folder/kit/bin" "$folder/kit/toolchain/bin"
  for it in "$kit"/* "$kit"/bin/* "$kit"/toolchain/* "$kit"/toolchain/bin/*; do
    name=${it#"$kit/"}
    case $name in
      bin | toolchain | toolchain/bin | bin/rattle | toolchain/bin/clang) ;;
      # (they look for the kit around themselves)
      bin/rt | bin/*.py) cp "$it" "$folder/kit/$name" ;;
      *) ln -s "$it" "$folder/kit/$name" ;;
    esac
  done
  printf '#!/bin/sh\nexit 1\n' >"$folder/kit/bin/rattle"
  cat >"$folder/kit/toolchain/bin/clang" <<END
#!/bin/sh
case " \$* " in
  *' -fsanitize=address '*) ln module.bc '$folder/module.bc' && exit 1 ;;
esac
exec '$kit/toolchain/bin/clang' "\$@"
END
  chmod +x "$folder/kit/bin/rattle" "$folder/kit/toolchain/bin/clang"
}

# Leaves the bitcode of a crate's program as module.bc of a folder. Where that can't be, it says why, and fails.
make_bitcode() {
  local crate=$1 folder=$2
  mkdir "$folder/try" && make_kit "$(kit_folder)" "$folder" || return
  (cd "$top/crates/$crate" && TMPDIR=$folder/try exec "$folder/kit/bin/rt" try --steps 1) </dev/null >"$folder/said" 2>&1
  [ -e "$folder/module.bc" ] || { tail -n 20 "$folder/said" >&2 && return 1; }
}
