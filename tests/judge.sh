#!/bin/sh
# judge.sh [PROGRAM]: builds judge.c as target/judge, or takes PROGRAM in its place, and runs it on every script of judge/. in-c.sh says how, and how it ends.
name=judge
. "$(dirname "$0")/in-c.sh"
