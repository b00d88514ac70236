#!/usr/bin/env bash
# The examples of document 01 that are not in the proved table, against the stored answers that the document gives.
# needs: python3
set -euo pipefail
cd "$(dirname "$0")"
python3 document_01_test.py | ../run drill | cmp - document_01.answers
echo "document 01: $(wc -l <document_01.answers) answers"
