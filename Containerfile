# An image with a released `lavkheto`; docs/CI.md says how to use it. In the folder with the files of the release:
#
#     docker build -f PATH/Containerfile --build-arg VERSION=0.1.0 --build-arg SHA256=CHECKSUM -t lavkheto .
#
# The checksum is that of the tarball in SHA256SUMS. BASE may be another system with a glibc that is new enough, as IMAGE@sha256:DIGEST.
ARG BASE=debian:12-slim

FROM ${BASE} AS unpacked
ARG VERSION
ARG SHA256
WORKDIR /unpacked
COPY lavkheto-${VERSION}-x86_64-linux.tar.gz .
RUN echo "${SHA256}  lavkheto-${VERSION}-x86_64-linux.tar.gz" | sha256sum --strict -c - \
 && mkdir prefix \
 && tar -xzf "lavkheto-${VERSION}-x86_64-linux.tar.gz" --strip-components=1 -C prefix

FROM ${BASE}
COPY --from=unpacked /unpacked/prefix/ /usr/local/
RUN lavkheto --version
# (nobody)
USER 65534:65534
WORKDIR /work
CMD ["lavkheto", "--help"]
