# Finds `rt`, the kit's command, and holds its identity against the pinned one in KIT. Sourced by ./run and ./test,
# which set `me` to their own name and stand at the repository's root.
if ! command -v rt >/dev/null 2>&1; then
    echo "$me: rt, the command of the Rattle kit, is not on PATH; install the kit pinned in the file KIT ($(cat KIT)) and put its rt on PATH" >&2
    exit 1
fi
kit=$(rt version 2>/dev/null)
if [ "$kit" != "$(cat KIT)" ]; then
    echo "$me: warning: this kit is '$kit', and the repository is pinned to '$(cat KIT)'; going on, since the prover decides" >&2
fi
