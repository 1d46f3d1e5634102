#!/bin/sh
# bursts.sh [PROGRAM]: builds bursts.c as target/bursts, or takes PROGRAM in its place, and runs it on every script of bursts/. in-c.sh says how, and how it ends.
name=bursts
. "$(dirname "$0")/in-c.sh"
