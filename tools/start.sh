# What ./relay and ./magpierack share; to be sourced by them. It runs the script in tools/ that has the name of the command. That gets
# standard input as descriptor 3, since Python ends before it begins where its own standard input is a folder, with a status that has
# another meaning here.
real=$(readlink -f "$0")
name=$(basename "$real")
if ! command -v python3 >/dev/null; then
    echo "$name: python3 is not on the PATH" >&2
    exit 2
fi
if (exec 3<&0) 2>/dev/null; then
    exec 3<&0 </dev/null
else
    exec 3<&-
fi
exec python3 "$(dirname "$real")/tools/$name.py" "$@"
