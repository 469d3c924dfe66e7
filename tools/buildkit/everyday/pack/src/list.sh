#!/bin/sh
ls -la "$@"
