# What run.sh, outlines.sh and wkt.sh share: JTS, a JDK and a folder to build in. To be read in this folder.
# shellcheck shell=sh

jar=/usr/share/java/jts-core-1.19.0.jar
if ! [ -e "$jar" ] || ! command -v javac >/dev/null; then
    apt-get update -qq
    apt-get install -y -qq libjts-java default-jdk-headless
fi
out=$(mktemp -d)
trap 'rm -rf "$out"' EXIT

compile() { # FILES
    javac -cp "$jar" -d "$out" "$@"
}

jts() { # CLASS WORDS
    java -cp "$jar:$out" "$@"
}
