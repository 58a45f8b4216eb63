// A route by Qt Location, whose plugin asks an OSRM server: qml osrm_client.qml -- ADDRESS LATITUDE LONGITUDE ..
// It prints the route as one line of JSON.
import QtQuick 2.15
import QtLocation 5.15
import QtPositioning 5.15

Item {
    property var words: Qt.application.arguments.slice(Qt.application.arguments.indexOf("--") + 1)

    Plugin {
        id: client
        name: "osm"
        PluginParameter { name: "osm.routing.host"; value: words[0] + "/route/v1/driving/" }
        PluginParameter { name: "osm.routing.apiversion"; value: "v5" }
        PluginParameter { name: "osm.mapping.providersrepository.disabled"; value: true }
    }

    RouteQuery { id: question }

    RouteModel {
        id: routes
        plugin: client
        query: question
        onStatusChanged: {
            if (status === RouteModel.Error)
                console.log(JSON.stringify({error: errorString}))
            else if (status === RouteModel.Ready && count > 0)
                console.log(JSON.stringify(said(get(0))))
            if (status === RouteModel.Error || status === RouteModel.Ready)
                Qt.quit()
        }
    }

    // A list of QML is no array.
    function each(list, say) {
        var found = []
        for (var at = 0; at < list.length; at++)
            found.push(say(list[at]))
        return found
    }

    function said(route) {
        return {
            metres: route.distance,
            seconds: route.travelTime,
            path: each(route.path, place => [place.longitude, place.latitude]),
            steps: each(route.segments, step => step.maneuver.instructionText),
        }
    }

    Component.onCompleted: {
        for (var at = 1; at + 1 < words.length; at += 2)
            question.addWaypoint(QtPositioning.coordinate(Number(words[at]), Number(words[at + 1])))
        routes.update()
    }
}
