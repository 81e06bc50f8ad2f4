#!/bin/sh
# The artifact of the component: greets whom its configuration names.
echo "Hello, $1!" >> "$HELLO"
