# `olr-tools`, and its server: Debian 12 with the two packages of a release, as a user of its own. In the folder of the release:
#
#     podman build --format docker --tag olr-tools --file THIS_FILE .
#
# OCI's own format of images has no health check, so the format is docker's.
#
# BASE may be a Debian 12 that already has what the packages depend on: then the build needs no network.
ARG BASE=docker.io/library/debian:12
FROM $BASE

COPY olr_*.deb olr-tools_*_all.deb /packages/
# Without a network apt-get update only warns.
RUN apt-get update \
    && DEBIAN_FRONTEND=noninteractive apt-get install -y --no-install-recommends \
        /packages/olr_*_"$(dpkg --print-architecture)".deb /packages/olr-tools_*_all.deb \
    && apt-get clean && rm -rf /packages /var/lib/apt/lists/* \
    && useradd --uid 10001 --user-group --no-create-home --home-dir /nonexistent --shell /usr/sbin/nologin olr

# By its number, so that Kubernetes can tell that it isn't root.
USER 10001:10001
WORKDIR /map
EXPOSE 8000

# The client is one that passes no request on to a proxy.
HEALTHCHECK --interval=30s --timeout=10s --start-period=120s CMD ["python3", "-c", "import http.client, sys; client = http.client.HTTPConnection('127.0.0.1', 8000, timeout=8); client.request('GET', '/ready'); sys.exit(client.getresponse().status != 200)"]

ENTRYPOINT ["olr-tools"]
CMD ["serve", "--map", "/map", "--host", "0.0.0.0"]
