"""Pictures of answer documents and of topologies, as SVG and as one HTML page."""
