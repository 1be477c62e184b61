# Sourced by what builds against the desk's library or starts its programs: both are for x86-64 Linux. On another processor a cross
# compiler and an emulator stand in for the machine's own; the address sanitizer can't run there, and a time measured there says nothing.
# *_packages are the Debian packages of each.
if [ "$(uname -m)" = x86_64 ]; then
  compiler=gcc compiler_packages='gcc libc6-dev'
  cxx_compiler=g++ cxx_packages=g++
  emulator='' emulator_packages=''
  sanitizers='-fsanitize=address,undefined -fno-sanitize-recover=all'
else
  compiler=x86_64-linux-gnu-gcc compiler_packages='gcc-x86-64-linux-gnu libc6-dev-amd64-cross'
  cxx_compiler=x86_64-linux-gnu-g++ cxx_packages=g++-x86-64-linux-gnu
  emulator='qemu-x86_64 -L /usr/x86_64-linux-gnu' emulator_packages='qemu-user libc6-amd64-cross'
  sanitizers='-fsanitize=undefined -fno-sanitize-recover=all'
fi

# startable PROGRAM FILE: makes FILE a command that starts PROGRAM
startable() {
  printf '#!/bin/sh\nexec %s "%s" "$@"\n' "$emulator" "$(realpath "$1")" >"$2"
  chmod +x "$2"
}

# missing_packages COMMAND=PACKAGE...: the packages of the commands that are not here
missing_packages() {
  for pair in "$@"; do
    command -v "${pair%%=*}" >/dev/null || printf '%s ' "${pair#*=}"
  done
}
