#!/usr/bin/env bash
# tests/python/packed.sh README: the wheel that `make python` leaves, and pip: the same wheel twice, every file in its list; installed
# in an empty environment, once from the wheel and once from the tree, with no network; the lines of a file with README's, and the
# tests of the package, run there; a library that is missing or another is told. Without pip or venv it says so.
set -euo pipefail
cd "$(dirname "$0")/../.."
readme=$1
work=$(mktemp -d)
trap 'rm -rf "$work"' EXIT
fail() { echo "python: $1"; exit 1; }
export PYTHONDONTWRITEBYTECODE=1
unset PYTHONPATH
wheel=build/python/$(cat build/python/wheel.txt)
version=$(sed -n 's/.*KELINDAP_VERSION_TEXT "\(.*\)"/\1/p' include/kelindap_common.h)

# the same of the same, whenever it is made
mkdir "$work/copy"
cp -r build/python/kelindap "$work/copy"
find "$work/copy" -type f -exec touch -d '2001-02-03' {} +
mkdir "$work/again"
(umask 077 && python3 hosts/python/making/backend.py "$work/copy/kelindap" "$work/again" > /dev/null)
cmp "$wheel" "$work/again/$(basename "$wheel")" || fail "the wheel is another when it is made again"
python3 - "$wheel" "$version" << 'END' || fail "the wheel tells something else than what it has"
import base64, csv, hashlib, sys, zipfile
archive = zipfile.ZipFile(sys.argv[1])
record, = [name for name in archive.namelist() if name.endswith("/RECORD")]
listed = {name: (hash_, size) for name, hash_, size in csv.reader(archive.read(record).decode().splitlines())}
assert listed.pop(record) == ("", "")
assert set(listed) | {record} == set(archive.namelist()) and len(listed) + 1 == len(archive.namelist())
for name, told in listed.items():
    text = archive.read(name)
    assert told == ("sha256=" + base64.urlsafe_b64encode(hashlib.sha256(text).digest()).decode().rstrip("="), str(len(text))), name
import re
sys.path.insert(0, "hosts/python/making")
import backend
told = dict(re.findall(r"^(.*?): (.*)$", archive.read(record.replace("RECORD", "METADATA")).decode(), re.M))
try:
    import tomllib
    project = tomllib.load(open("hosts/python/pyproject.toml", "rb"))["project"]
    assert [told[name] for name in ("Name", "Summary", "Requires-Python")] == [project[name] for name in ("name", "description", "requires-python")]
except ImportError:
    pass
assert told["Version"] == backend.version() == sys.argv[2]
for machine, names in ((62, ["linux_x86_64"]), (183, ["linux_aarch64"]), (40, ["linux_armv6l", "linux_armv7l"]), (243, ["linux_riscv64"])):
    assert backend.platforms(b"\x7fELF\2\1" + bytes(12) + bytes([machine, 0])) == names
assert {"kelindap/py.typed", "kelindap/libkelindap.so.0", "kelindap/names.py"} <= set(listed)
END

# what can't be loaded is told
told() { # WORDS LIBRARY
    ! KELINDAP_LIBRARY=$2 PYTHONPATH=build/python python3 -c 'import kelindap' 2> "$work/said" || fail "$(basename "$2") is loaded"
    tail -n 1 "$work/said" | grep -q "^ImportError: kelindap: .*$1" || { cat "$work/said"; fail "$(basename "$2") is not told"; }
}
told 'is not there' "$work/nowhere.so"
printf 'int nothing;\n' | gcc -shared -x c -o "$work/other.so" -
told 'has no kelindap_version' "$work/other.so"
sed -n 's/^    "\([a-z_]*\)": (.*/unsigned kelindap_\1(void) { return 7; }/p' hosts/python/kelindap/_library.py | gcc -shared -x c -o "$work/version.so" -
told "this is version $version, and .* is 0.0.7" "$work/version.so"

pip() { python3 -m pip --disable-pip-version-check --quiet --no-cache-dir "$@"; }
if ! pip --version > /dev/null 2>&1 || ! python3 -m venv --without-pip "$work/room" > /dev/null 2>&1 || ! pip --python "$work/room/bin/python" list > /dev/null 2>&1; then
    echo "python: left out: installing, which takes pip 22.3 and venv"
    exit 0
fi
for from in "$wheel" ./hosts/python; do
    pip --python "$work/room/bin/python" install --no-index "$from" || fail "pip does not install $from"
    [ "$(cd "$work" && room/bin/python -c 'import importlib.metadata as m, kelindap; print(m.version("kelindap"), kelindap.__version__)')" = "$version $version" ] ||
        fail "another version is installed from $from"
    place=$(cd "$work" && room/bin/python -c 'import kelindap, os; print(os.path.dirname(kelindap.__file__))')
    diff -r -x __pycache__ build/python/kelindap "$place" || fail "$from installs another package than was built"
    # the same files give the same: the tests once are enough
    [ "$from" != "$wheel" ] || for test in lost refusals whole; do
        (cd "$work" && room/bin/python "$OLDPWD/tests/python/$test.py" > said) || { cat "$work/said"; fail "$test fails as installed from $from"; }
    done
    (cd "$(dirname "$readme")" && "$work/room/bin/python" "$(basename "$readme")" > "$work/said")
    cmp -s "$work/said" "${readme%.py}.due" || { cat "$work/said"; fail "README's lines say something else as installed from $from"; }
    pip --python "$work/room/bin/python" uninstall -y kelindap
    case $place in "$work/room"/*) ;; *) fail "what was tried was not what pip installed" ;; esac
    [ ! -e "$place" ] || { find "$place"; fail "pip leaves files of $from"; }
done
echo "python: $(basename "$wheel"), the same twice; installed by pip from it and from the tree, and taken away"
