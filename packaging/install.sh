#!/bin/sh
# install.sh [PREFIX]: installs monitor below PREFIX, /usr/local for root and ~/.local for others if it isn't given.
# install.sh --remove [PREFIX]: removes what it installed, and the folders that this leaves empty.
# Nothing outside PREFIX is touched. The programs are PREFIX/bin/monitor and PREFIX/bin/possibly, which are the same.
set -eu
here=$(cd "$(dirname "$0")" && pwd)
remove=
case ${1-} in
  --remove) remove=1; shift ;;
  -*) sed -n '2,4s/^# //p' "$0"; [ "$1" = --help ] || [ "$1" = -h ]; exit ;;
esac
if [ "$(id -u)" = 0 ]; then prefix=${1-/usr/local}; else prefix=${1-$HOME/.local}; fi

if [ -n "$remove" ]; then
  while read -r file; do
    rm -f "$prefix/$file"
    folder=$(dirname "$prefix/$file")
    while [ "$folder" != / ] && rmdir "$folder" 2> /dev/null; do
      [ "$folder" = "$prefix" ] && break
      folder=$(dirname "$folder")
    done
  done < "$here/FILES"
  echo "removed from $prefix"
  exit
fi

while read -r file; do
  mkdir -p "$prefix/$(dirname "$file")"
  # A file is copied beside its place and renamed, so a program that runs is never written into.
  cp -P "$here/tree/$file" "$prefix/$file.new"
  mv -f "$prefix/$file.new" "$prefix/$file"
done < "$here/FILES"
echo "installed below $prefix: $("$prefix/bin/monitor" --version)"
case :$PATH: in
  *":$prefix/bin:"*) ;;
  *) echo "note: $prefix/bin is not in PATH" ;;
esac
