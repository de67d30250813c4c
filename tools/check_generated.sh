#!/usr/bin/env bash
# Fails where a generated file isn't what its script writes today. The rows of links and the script of `sysml` are compared where the independent
# implementation that they come from stands beside the repository.
set -u
cd "$(dirname "$0")"
status=0
python3 make_table.py --check || status=1
python3 make_rules.py --check || status=1
python3 make_print_rules.py --check || status=1
python3 make_examples.py --check || status=1
python3 make_build_examples.py --check || status=1
python3 make_lookup_rows.py --check || status=1
python3 make_print_rows.py --check || status=1
python3 make_edit_rows.py --check || status=1
python3 make_library.py --check || status=1
if [ -d ../../shared/oracle ]; then
  python3 make_link_rows.py --check || status=1
  python3 make_session_examples.py --check || status=1
fi
exit "$status"
