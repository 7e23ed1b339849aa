#!/usr/bin/env bash
# test-servlet.sh [PROGRAM]: compiles the filter for servlets with its tests, and runs them in Tomcat. Their recordings
# are judged by the program, if it is built: crates/monitor/out/monitor, if no other one is given. With --javax the
# filter is only compiled, with javax.servlet for jakarta.servlet. The status is 1 if anything is wrong.
set -u
here=$(realpath "$(dirname "$0")")
folder=$(mktemp -d)
trap 'rm -rf "$folder"' EXIT
cd "$here" || exit 1

export JAVA_TOOL_OPTIONS="-XX:TieredStopAtLevel=1 -XX:+UseSerialGC"
if [ "${1:-}" = --javax ]; then
  mkdir -p "$folder/javax" && cp -r monitor "$folder/javax" && cd "$folder/javax" || exit 1
  sed -i 's/jakarta\.servlet/javax.servlet/' monitor/http/RecordingFilter.java
  javac -Xlint:all -Werror -d "$folder" -cp /usr/share/java/servlet-api.jar monitor/*.java monitor/http/*.java || exit 1
  echo "java, servlets: compiled for javax.servlet"
  exit
fi
MONITOR=$(realpath -m "${1:-${MONITOR:-../../crates/monitor/out/monitor}}")
export MONITOR
jars=/usr/share/java/tomcat10-embed-core.jar
javac -Xlint:all -Werror -d "$folder" -cp "$jars" monitor/*.java monitor/http/*.java HttpTest.java ServletTest.java \
  && timeout 300 java -cp "$folder:$jars" ServletTest "$folder/servlets"
