package main

var version string

func main() { println("api", version) }
