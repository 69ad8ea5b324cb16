#!/usr/bin/env bash
# tests/firmware/attributes.sh ARCHIVE..: no object of an archive for Arm says that it passes enums of one size, or floating-point
# numbers in one way, since it passes none: a host compiled in either way links it without a warning of its linker.
set -euo pipefail
bad=0
for archive; do
    said=$(readelf -A "$archive" | grep -E 'Tag_ABI_(enum_size|VFP_args):' | sed 's/^ *//' | sort | uniq -c | sed 's/^ *//')
    objects=$(ar t "$archive" | wc -l)
    due="$objects Tag_ABI_VFP_args: compatible
$objects Tag_ABI_enum_size: Unused"
    [ "$said" = "$due" ] || { printf 'attributes: %s says\n%s\nin place of\n%s\n' "$archive" "$said" "$due"; bad=1; }
done
[ "$bad" = 0 ]
echo "attributes: $# archives for Arm link with enums of either size, and floating-point numbers passed in either way"
