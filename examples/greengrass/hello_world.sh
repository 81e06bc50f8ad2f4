#!/bin/sh
# The artifact of the component: greets whom its configuration names, and stays.
echo "Hello, $1!"
exec sleep 60
