package main

var version string

func main() { println("hello", version) }
