# `olr` alone: the static program of a release's archive, and its licences. In the folder that the archive is unpacked to:
#
#     podman build --tag olr --file containers/olr.Containerfile .
FROM scratch
COPY olr LICENSE NOTICE relink/LGPL-2.1 /
USER 10001:10001
WORKDIR /map
ENTRYPOINT ["/olr"]
