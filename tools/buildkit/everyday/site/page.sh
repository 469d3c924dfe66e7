set -e; echo "<h1>$1</h1>"; sed "s/^/<p>/; s/$/<\/p>/" "$2"
