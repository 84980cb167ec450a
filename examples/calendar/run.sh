#!/usr/bin/env bash
# Asks an image of the days of ten years for the Fridays that are a thirteenth, in two years.
set -eu
cd "$(dirname "$0")"
exec ../../scripts/try.sh thirteenth.query finish.script years.txt
